"""Chromium without a window, for the test of the report and for its picture: pages, keys, pictures and PDF.

The browser reads commands of the DevTools protocol from a pipe, and writes to another one: JSON, each ended by a zero.
"""
import base64
import json
import os
import shutil
import subprocess
import tempfile
from typing import Any

NAMES = ('chromium', 'chromium-browser', 'google-chrome')
FLAGS = ('--headless', '--no-sandbox', '--disable-gpu', '--hide-scrollbars', '--no-first-run', '--disable-extensions',
         '--disable-background-networking', '--remote-debugging-pipe')
KEYS = {'Tab': 9, 'Enter': 13, 'End': 35, 'Home': 36, 'ArrowLeft': 37, 'ArrowUp': 38, 'ArrowRight': 39, 'ArrowDown': 40}


def find_browser(given: str | None = None) -> str | None:
    """Returns the path of the browser, or None if none is installed."""
    return next(filter(None, map(shutil.which, [given] if given else NAMES)), None)


class Browser:
    """A running browser with one page."""

    def __init__(self, program: str) -> None:
        self.profile = tempfile.TemporaryDirectory(ignore_cleanup_errors=True)
        (read_end, self.write_end), (self.read_end, write_end) = os.pipe(), os.pipe()
        command = f'exec "$0" "$@" 3<&{read_end} 4>&{write_end}'
        self.process = subprocess.Popen(
            ['bash', '-c', command, program, *FLAGS, f'--user-data-dir={self.profile.name}', 'about:blank'],
            pass_fds=[read_end, write_end], stdout=subprocess.DEVNULL, stderr=subprocess.DEVNULL)
        os.close(read_end)
        os.close(write_end)
        self.number, self.rest, self.session = 0, b'', ''
        self.requests: list[str] = []  # what the page asked for
        target = self.send('Target.createTarget', url='about:blank')['targetId']
        self.session = self.send('Target.attachToTarget', targetId=target, flatten=True)['sessionId']
        for domain in ('Page', 'Runtime', 'Network'):
            self.send(f'{domain}.enable')
        self.send('Performance.enable', timeDomain='threadTicks')

    def __enter__(self) -> 'Browser':
        return self

    def __exit__(self, *_: object) -> None:
        self.process.terminate()
        self.process.wait()
        os.close(self.read_end)
        os.close(self.write_end)
        self.profile.cleanup()

    def read(self) -> dict[str, Any]:
        """Returns the next message, and stores the addresses that the page requests."""
        while b'\0' not in self.rest:
            more = os.read(self.read_end, 1 << 16)
            if not more:
                raise SystemExit('the browser ended')
            self.rest += more
        message, _, self.rest = self.rest.partition(b'\0')
        found: dict[str, Any] = json.loads(message)
        if found.get('method') == 'Network.requestWillBeSent':
            self.requests.append(found['params']['request']['url'])
        return found

    def send(self, method: str, **params: Any) -> dict[str, Any]:
        """Sends a command and returns its result."""
        self.number += 1
        command = {'id': self.number, 'method': method, 'params': params}
        if self.session:
            command['sessionId'] = self.session
        text = json.dumps(command).encode() + b'\0'
        while text:
            text = text[os.write(self.write_end, text):]
        while True:
            found = self.read()
            if found.get('id') == self.number:
                if 'error' in found:
                    raise SystemExit(f'{method}: {found["error"]}')
                result: dict[str, Any] = found['result']
                return result

    def open(self, path: str) -> None:
        """Opens a file, and waits until it is loaded."""
        self.requests.clear()
        self.send('Page.navigate', url='file://' + path)
        self.value("new Promise(done => document.readyState === 'complete' && location.protocol === 'file:' ? "
                   "done(1) : addEventListener('load', () => done(1)))")

    def processor_seconds(self) -> float:
        """Returns the processor time of the tasks of the page's main thread."""
        metrics = self.send('Performance.getMetrics')['metrics']
        return float(next(each['value'] for each in metrics if each['name'] == 'TaskDuration'))

    def value(self, script: str) -> Any:
        """Returns the value of an expression in the page, after its promise."""
        found = self.send('Runtime.evaluate', expression=script, returnByValue=True, awaitPromise=True)
        if 'exceptionDetails' in found:
            raise SystemExit(f'{script}: {found["exceptionDetails"]}')
        return found['result'].get('value')

    def press(self, key: str) -> None:
        """Presses a key and releases it."""
        text = {'text': '\r'} if key == 'Enter' else {}
        released: dict[str, str] = {}
        for kind, more in (('keyDown' if text else 'rawKeyDown', text), ('keyUp', released)):
            self.send('Input.dispatchKeyEvent', type=kind, key=key, code=key, windowsVirtualKeyCode=KEYS[key], **more)

    def size(self, width: int, height: int, scale: float = 1) -> None:
        self.send('Emulation.setDeviceMetricsOverride', width=width, height=height, deviceScaleFactor=scale,
                  mobile=False)

    def picture(self, selector: str | None = None) -> bytes:
        """Returns a PNG of the visible part of the page, or of an element."""
        clip: dict[str, Any] = {}
        if selector:
            box = self.value(f'(box => [box.x + scrollX, box.y + scrollY, box.width, box.height])('
                             f'document.querySelector({json.dumps(selector)}).getBoundingClientRect())')
            clip = {'clip': {**dict(zip(('x', 'y', 'width', 'height'), box)), 'scale': 1},
                    'captureBeyondViewport': True}
        return base64.b64decode(self.send('Page.captureScreenshot', format='png', **clip)['data'])

    def pdf(self) -> bytes:
        found = self.send('Page.printToPDF', preferCSSPageSize=True, printBackground=True)
        return base64.b64decode(found['data'])
