"""Texts of a description that must do nothing in a spreadsheet or a browser, for report-test."""
import base64
import hashlib
import os
import re
from collections.abc import Callable

HOSTILE = '''topos = 2
flow = [
  # topos: title =1+1
  ["a", "-1"],
]
host = [{ name = "a", at = ["10.0.0.1"] }, { name = "-1", at = ["10.0.0.2"] }]
'''
CELLS = ["a,'-1,answered,true,true,true,,,4,'=1+1", "'-1,a,gap,false,false,false,,,,"]
POLICY = ("default-src 'none'; style-src 'sha256-{}'; script-src 'sha256-{}'; img-src data:; base-uri 'none'; "
          "form-action 'none'")


def digests(page: str, kind: str) -> list[str]:
    """Returns the digests of the elements of a kind without attributes."""
    texts = re.findall(f'<{kind}>(.*?)</{kind}>', page, re.DOTALL)
    return [base64.b64encode(hashlib.sha256(each.encode()).digest()).decode() for each in texts]


def judge_hostile(same: Callable[[str, object, object], None], report: Callable[..., str], folder: str) -> None:
    """No cell is a formula, and the policy of the page names its style and its script alone."""
    net = os.path.join(folder, 'hostile.toml')
    with open(net, 'w', encoding='utf-8') as file:
        file.write(HOSTILE)
    same('cells', report('--csv', net).splitlines()[1:], CELLS)
    page = report(net)
    found = digests(page, 'style') + digests(page, 'script')
    policies = re.findall('<meta http-equiv="Content-Security-Policy" content="(.*?)">', page)
    same('policy of the page', (policies, len(found)), ([POLICY.format(*found)], 2))
    same('attributes that the policy forbids', re.findall(r'<[a-z][^>]* (?:style|on[a-z]+)=', page), [])
