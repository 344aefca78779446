# shellcheck shell=bash disable=SC2034,SC2154
# What is changed, and the form of what topos writes, whose words the files of each kind add. Declares form[..].

# A function for each `kind`, `rules` of iptables or a `table`, ends with this word; the `dialect` is that of topos.
declare -gA form=()

# The least and the greatest address of a prefix as numbers, for awk.
form[ranges]='
  function lowest(prefix, part) {
    split(prefix, part, "[./]")
    return ((part[1] * 256 + part[2]) * 256 + part[3]) * 256 + part[4]
  }
  function highest(prefix, part) {
    return lowest(prefix) + (split(prefix, part, "/") == 2 ? 2 ^ (32 - part[2]) : 1) - 1
  }'

# The chains that rules lead to from those in `reached`, for awk. `leads` takes a jump, and `take_jumps` those of a rule.
# shellcheck disable=SC2016
form[closure]='
  function leads(chain, target) { from[++jumps] = chain; to[jumps] = target }
  function take_jumps(word) { for (word = 3; word < NF; word++) if ($word ~ /^-[jg]$/) leads($2, $(word + 1)) }
  function reach(each, more) {
    do {
      more = 0
      for (each = 1; each <= jumps; each++)
        if (from[each] in reached && !(to[each] in reached)) { reached[to[each]]; more = 1 }
    } while (more)
  }'

# Prints how the lines of two files differ, in order: - only in the first, + only in the second, ~ elsewhere in the second.
line_changes() {
  diff "$1" "$2" | awk '
    /^[<>] / {
      sign[++count] = $1; line[count] = substr($0, 3)
      if ($1 == "<") gone[line[count]]++; else come[line[count]]++
    }
    END {
      for (each = 1; each <= count; each++) {
        words = line[each]
        moved = gone[words] < come[words] ? gone[words] : come[words]
        if (sign[each] == ">") print ++shown[words] <= moved ? "~" : "+", words
        else if (++left[words] > moved) print "-", words
      }
    }'
}

part=forms # a truncated file lacks this line
