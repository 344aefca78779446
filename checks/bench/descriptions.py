"""Descriptions at the limits, and some beyond them: up to 1,048,576 bytes, so most names are short."""
import re
from collections.abc import Callable, Iterable

HOSTS, HALF, PREFIXES, REST = 256, 127, 1024, 255
LIMIT, SERVICES = 1048576, 16


def name(host: int) -> str:
    return f'h{host:02x}'


def long_names(text: str) -> str:
    """The text with names of 24 bytes, so that the reports are long."""
    return re.sub(r'"(h[0-9a-f]{2})"', lambda found: f'"{found[1].ljust(24, "x")}"', text)


def network(number: int) -> str:
    """The first three numbers of the addresses of a prefix."""
    return f'10.{number // 256 * 7 + number % 7}.{number % 256}'


def quoted(texts: Iterable[str]) -> str:
    return '[' + ', '.join(f'"{text}"' for text in texts) + ']'


def names(numbers: Iterable[int]) -> str:
    return quoted(name(number) for number in numbers)


def hosts() -> list[str]:
    """All prefixes are spread over the specific hosts; the last host is the rest host."""
    lines = []
    for host in range(HOSTS):
        if host == REST:
            lines.append(f'[[host]]\nname = "{name(host)}"\nrest = true\n')
            continue
        at = [f'{network(number)}.0/24' for number in range(host, PREFIXES, REST)]
        lines.append(f'[[host]]\nname = "{name(host)}"\nat = {quoted(at)}\n')
    return lines


def invariant(template: str, attributes: dict[int, str]) -> str:
    """Returns an invariant. `attributes` maps each host with an entry to the text after its name."""
    lines = [f'[[invariant]]\ntemplate = "{template}"\nassign = [']
    for host, attribute in attributes.items():
        lines.append(f'  {{ host = "{name(host)}", {attribute} }},')
    return '\n'.join(lines) + '\n]\n'


def each(attribute: Callable[[int], str]) -> dict[int, str]:
    """The attribute of every host, from its number."""
    return {host: attribute(host) for host in range(HOSTS)}


def description(flows: Iterable[Iterable[str]] | None, invariants: list[str], version: int = 1) -> str:
    """Returns a description. `flows` are lists of words; if they are None, the key `flow` is omitted."""
    head = f'topos = {version}\n'
    if flows is not None:
        head += 'flow = [\n' + ''.join(f'  {quoted(flow)},\n' for flow in flows) + ']\n'
    return '\n'.join([head] + hosts() + invariants)


def mixed_invariants() -> list[str]:
    """Sixteen invariants of which about half hold of dense flows."""

    def labels(host: int) -> str:
        return quoted(f'label-{host}-{number}' for number in range(6))

    kinds = ('gateway', 'gateway-in', 'accessible', 'unassigned', 'unassigned', 'unassigned', 'member', 'unassigned')

    def others(host: int) -> str:
        return names(other for other in range(HOSTS) if other != host)

    return [
        invariant('dependability', each(lambda h: 'limit = 255')),
        invariant('dependability', each(lambda h: f'limit = {255 if h < 192 else 80}')),
        invariant('dependability', each(lambda h: f'limit = {160 + h % 64}')),
        invariant('noninterference', {h: 'kind = "unrelated"' for h in range(1, HOSTS)}),
        invariant('noninterference', {h: 'kind = "unrelated"' for h in range(HOSTS) if h not in (10, 30)}),
        invariant('noreach', each(lambda h: 'deny = []')),
        invariant('noreach', each(lambda h: f'deny = {names([30] if h != 30 else [])}')),
        invariant('noreach', each(lambda h: f'deny = {names([(h + 1) % HOSTS] if h > 223 else [])}')),
        invariant('blp', each(lambda h: 'level = 7')),
        invariant('blp', each(lambda h: f'level = {h % 16 // 5}, trusted = {"true" if h % 8 == 0 else "false"}')),
        invariant('tainting', {h: f'taints = {labels(h)}, untaints = {labels(h)}' for h in range(10)}),
        invariant('sink', {3: 'kind = "sink"', 17: 'kind = "pool"', 18: 'kind = "pool"'}),
        invariant('gateway', each(lambda h: f'kind = "{kinds[h % 8]}"')),
        invariant('subnets', each(lambda h: 'kind = "border", number = 4' if h == 4 else 'kind = "unassigned"')),
        invariant('partners', {5: 'kind = "care"', 6: f'kind = "master", from = {others(6)}'}),
        invariant('domains', each(lambda h: f'path = "{"/".join(["segment"] * (h % 3 + 1))}", trust = 2')),
    ]


def half(host: int) -> range:
    """Returns the hosts of the half in which a host is."""
    return range(0, HALF) if host < HALF else range(HALF, HOSTS)


def place(host: int) -> int:
    """Returns the place of a host in its half."""
    return host if host < HALF else host - HALF


def other_half(host: int) -> list[int]:
    return [other for other in range(HOSTS) if other not in half(host)]


def held_invariants() -> list[str]:
    """Sixteen invariants that hold of the flows of `rising`."""

    def path(h: int) -> str:
        return '/'.join(['part'] * min(place(h) + 1, 16))

    def labels(h: int) -> str:
        return quoted(f'l{number}' for number in range(min(place(h) // 2 + 1, 64)))

    return [
        invariant('dependability', each(lambda h: 'limit = 255')),
        invariant('dependability', each(lambda h: 'limit = 128')),
        invariant('dependability', each(lambda h: 'limit = 65535')),
        invariant('noninterference', {h: 'kind = "unrelated"' for h in range(HOSTS) if h not in (0, 160)}),
        invariant('noninterference', {h: 'kind = "unrelated"' for h in range(HOSTS) if h not in (7, 255)}),
        invariant('noreach', each(lambda h: f'deny = {names(other_half(h))}')),
        invariant('noreach', each(lambda h: 'deny = []')),
        invariant('noreach', each(lambda h: f'deny = {names(range(0, min(h, 10)))}')),
        invariant('blp', each(lambda h: f'level = {place(h) // 4}')),
        invariant('blp', each(lambda h: 'level = 7')),
        invariant('tainting', each(lambda h: f'taints = {labels(h)}, untaints = {labels(h)}')),
        invariant('sink', {HALF - 1: 'kind = "sink"', HOSTS - 1: 'kind = "sink"'}),
        invariant('gateway', each(lambda h: 'kind = "accessible"')),
        invariant('subnets', each(lambda h: f'kind = "subnet", number = {int(h >= HALF)}')),
        invariant('partners', each(lambda h: f'kind = "master", from = {names(o for o in half(h) if o < h)}')),
        invariant('domains', each(lambda h: f'path = "{path(h)}"')),
    ]


def pairs(is_asked: Callable[[int, int], bool]) -> list[tuple[str, str]]:
    return [(name(i), name(j)) for i in range(HOSTS) for j in range(HOSTS) if i != j and is_asked(i, j)]


def rising() -> list[tuple[str, str]]:
    """In each half of the hosts, from every host to every later one."""
    return pairs(lambda i, j: i < j and (i < HALF) == (j < HALF))


def served() -> list[tuple[str, str, str]]:
    """Returns the flows of `rising` with a service each, one of four, until the description is full."""
    services = ('tcp/80', 'udp/53-60', 'icmp', 'tcp')
    return [(*flow, services[number % 4]) for number, flow in enumerate(rising()) if number % 4 != 3]


def at_the_limits() -> dict[str, str]:
    """Returns the inputs of all commands except `sample`."""
    return {
        'all-asked': long_names(description(None, mixed_invariants())),
        'given-breaks': description(pairs(lambda i, j: (7 * i + 5 * j) % 3 != 0), mixed_invariants()),
        'given-holds': description(rising(), held_invariants()),
        'with-services': description(served(), held_invariants(), 2),
    }


def every_listed() -> str:
    """All flows, listed one by one, in lines that are as short as they can be."""
    listed = ','.join(f'["{a}","{b}"]' for a, b in pairs(lambda i, j: True))
    return '\n'.join([f'topos = 1\nflow = [{listed}]\n'] + hosts())


def largest() -> str:
    """Every host asks all later ones, so each chain has to distinguish answers from flows."""
    return description(pairs(lambda i, j: i < j), [])


def single_hosts(count: int) -> list[str]:
    """Hosts of one address, each in a line."""
    return [f'  {{ name = "h{host}", at = ["10.0.{host // 250}.{host % 250}"] }},\n' for host in range(count)]


def small_description(flows: str, host_lines: list[str], more: str = '', version: int = 1) -> str:
    return f'topos = {version}\nflow = [{flows}]\nhost = [\n{"".join(host_lines)}]\n{more}'


def most_services() -> str:
    """The largest number of flows, each with the largest number of services."""
    services = ','.join(f'"tcp/{number}"' for number in range(SERVICES))
    listed, room = [], LIMIT - len(small_description('', single_hosts(HOSTS)))
    for i, j in ((i, j) for i in range(HOSTS) for j in range(HOSTS) if i != j):
        listed.append(f'["h{i}","h{j}",{services}],')
        room -= len(listed[-1])
        if room < 0:
            break
    return small_description(''.join(listed[:-1]), single_hosts(HOSTS), version=2)


def from_many_prefixes(count: int) -> str:
    """A host of this many prefixes asks each of 100 others for 16 ranges of ports, so that each chain has a rule
    for answers to each prefix by each range, in lines that are as long as they can be."""
    at = quoted(f'203.100.{100 + number // 128}.{100 + number % 128}/32' for number in range(count))
    services = quoted(f'tcp/{10000 + number}-{20000 + number}' for number in range(SERVICES))[1:-1]
    flows = ''.join(f'["many", "h{host}", {services}], ' for host in range(100, 200))
    return small_description(flows, [*single_hosts(200), f'{{ name = "many", at = {at} }}'], version=2)


def between_one_and_all() -> str:
    """One host asks each other one for 16 ranges of ports and is asked for as many, and all prefixes are those of the
    others: its own rules are as many as those of a host can be."""

    def services(low: int) -> str:
        return quoted(f'tcp/{low + number}-{low + 20000 + number}' for number in range(SERVICES))[1:-1]

    def address(number: int) -> str:
        return f'203.100.{100 + number // 128}.{100 + number % 128}/32'

    def at(host: int) -> str:
        return quoted(address(number) for number in range(host, PREFIXES, HOSTS - 1))

    others = [f'{{ name = "h{host}", at = {at(host)} }},\n' for host in range(1, HOSTS)]
    flows = ''.join(f'["one", "h{host}", {services(10000)}], ["h{host}", "one", {services(40000)}], '
                    for host in range(1, HOSTS))
    return small_description(flows, ['{ name = "one", at = ["203.0.113.1"] },\n', *others], version=2)


def beside_the_rest(count: int) -> str:
    """A host of so many prefixes, with a rest host: every pair of them has its flow."""
    at = quoted(f'{number}.0.0.0/24' for number in range(1, count + 1))
    return f'topos = 1\nflow = []\nhost = [{{ name = "net", at = {at} }}, {{ name = "inet", rest = true }}]\n'


def by_ports(senders: int, receivers: int) -> str:
    """A host of so many prefixes that asks one of so many for each of 16 ports, and gets no answers."""

    def at(first: int, count: int) -> str:
        return quoted(f'{first + number}.0.0.0/24' for number in range(count))

    services = quoted(f'tcp/{number}' for number in range(SERVICES))[1:-1]
    both = f'{{ name = "a", at = {at(1, senders)} }}, {{ name = "b", at = {at(101, receivers)} }}'
    return 'answers = "none"\n' + small_description(f'["a", "b", {services}]', [both], version=2)


def sample_description(count: int) -> str:
    """The network of `sample`, as a description."""
    levels = ''.join(f'  {{ host = "h{host}", level = {host % 4} }},\n' for host in range(count))
    cares = ''.join(f'  {{ host = "h{host}", kind = "care" }},\n' for host in range(0, count, 8))
    some = ''.join(f'  {{ name = "h{host}", at = ["10.0.0.{host}"] }},\n' for host in range(count))

    def written(template: str, assigns: str) -> str:
        return f'[[invariant]]\ntemplate = "{template}"\nassign = [\n{assigns}]\n'

    return f'topos = 1\nhost = [\n{some}]\n{written("blp", levels)}{written("partners", cares)}'


def up_to(limit: int, text: str) -> str:
    """Repeats the text, up to this number of bytes."""
    return text * (limit // len(text))


def short_pairs(count: int) -> list[str]:
    return [f'["h{i}","h{j}"],' for i in range(count) for j in range(count) if i != j]


def many_entries() -> str:
    """Entries with long lists; the last one denies its own host."""

    def denied(host: int) -> str:
        return up_to(200, f'"h{(host + 1) % HOSTS}",')

    def entries(last: int) -> str:
        return ''.join(f'  {{ host = "h{host}", deny = [{denied(host)}] }},\n' for host in range(last))

    def written(text: str) -> str:
        return f'[[invariant]]\ntemplate = "noreach"\nassign = [\n{text}]\n'

    last = f'{entries(HOSTS - 1)}  {{ host = "h{HOSTS - 1}", deny = ["h{HOSTS - 1}"] }},\n'
    return written(entries(HOSTS)) * 15 + written(last)


def refused() -> dict[str, str]:
    """Returns descriptions that `check` refuses; the head of checks/bench/run lists the reasons."""
    some, all_hosts, room = single_hosts(HOSTS // 2), single_hosts(HOSTS), LIMIT - 20000
    every, last = ''.join(short_pairs(HOSTS)), '["h255","h254"],'
    prefixes = ''.join(f'"10.{number // 250}.{number % 250}.0/24",' for number in range(50000))
    bad = most_services().replace('"tcp/15"],]', '"tcp/015"],]')
    return {
        'names': small_description(''.join(short_pairs(HOSTS + 1)), single_hosts(HOSTS + 1)),
        'flows': small_description(up_to(room, ''.join(short_pairs(HOSTS // 2))), some),
        'twice': small_description(every + last, all_hosts),
        'prefixes': small_description('', [f'{{ name = "h0", at = [{prefixes}] }}']),
        'late-entry': small_description('', all_hosts, many_entries()),
        'late-service': bad,
        'services': small_description(f'["h0","h1",{up_to(room, chr(34) + "udp" + chr(34) + ",")}]', some, version=2),
    }
