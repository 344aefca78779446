"""The section of the page on services: the permitted flows of each."""
import re

from .report_model import Flow
from .report_view import FEW, View, table
from .report_words import PERMITTED

ALL = 'all traffic'
MOST_SMALL = 400  # flows of a service that the page of a small network lists
SERVICE = re.compile(r'(\w+)(?:/(\d+))?')


def order_of(service: str) -> tuple[str, int]:
    """Returns the protocol of a service and its first port; `all traffic` comes first."""
    found = SERVICE.match(service)
    return ('', 0) if service == ALL or not found else (found[1], int(found[2] or -1))


def by_service(view: View) -> dict[str, list[Flow]]:
    """Returns the permitted flows of each service, as the description writes it."""
    found: dict[str, list[Flow]] = {}
    for flow in view.network.of_state(PERMITTED):
        for service in view.network.services(flow) or [ALL]:
            found.setdefault(service, []).append(flow)
    return {service: found[service] for service in sorted(found, key=order_of)}


def section(view: View) -> str:
    most = MOST_SMALL if view.is_small else FEW
    rows = ''.join(f'<tr><th scope="row" class="mono">{service}</th><td class="n">{len(flows):,}</td>'
                   f'<td>{view.few_flows(flows, most)}</td></tr>' for service, flows in by_service(view).items())
    listed = table(('Service', 'Number', 'Permitted flows'), rows) if rows else '<p>No flow is permitted.</p>'
    return f'''<section id="services" aria-labelledby="services-title">
<h2 id="services-title">Services {view.tag('fact')}</h2>
<p>All services of the permitted flows, as the file writes them. <code>tcp</code> or <code>udp</code> without a port is
all ports.</p>
{listed}
</section>'''
