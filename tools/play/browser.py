"""A headless Chromium, driven through its pipe: no library beside Python's own."""
import base64
import itertools
import json
import os
import select
import shutil
import subprocess
import tempfile
import time

NAMES = ('chromium', 'chromium-browser', 'chromium-headless-shell', 'google-chrome')


def found():
    """Where Chromium is, or None."""
    return next(filter(None, map(shutil.which, NAMES)), None)


class Browser:
    """One page of Chromium. What goes wrong in the page is in `errors`."""

    def __init__(self, program):
        self.folder = tempfile.mkdtemp()
        to_read, self.write = os.pipe()
        self.read, to_write = os.pipe()

        def pipes():
            # Chromium reads from 3 and writes to 4
            low = os.dup2(to_read, 100), os.dup2(to_write, 101)
            for place, one in zip((3, 4), low):
                os.dup2(one, place)
                os.close(one)

        self.process = subprocess.Popen(
            [program, '--headless=new', '--no-sandbox', '--disable-gpu', '--disable-dev-shm-usage', '--no-first-run',
             '--disable-extensions', '--disable-background-networking', '--hide-scrollbars', '--remote-debugging-pipe',
             '--force-color-profile=srgb', f'--user-data-dir={self.folder}', 'about:blank'],
            stdin=subprocess.DEVNULL, stdout=subprocess.DEVNULL, stderr=subprocess.DEVNULL, pass_fds=(3, 4),
            preexec_fn=pipes)
        os.close(to_read)
        os.close(to_write)
        self.numbers, self.rest, self.errors, self.requests, self.session = itertools.count(1), b'', [], [], None
        try:
            target = self.call('Target.createTarget', url='about:blank')['targetId']
            self.session = self.call('Target.attachToTarget', targetId=target, flatten=True)['sessionId']
            for domain in ('Page', 'Runtime', 'Log', 'Network'):
                self.call(f'{domain}.enable')
        except OSError:
            self.close()
            raise

    def close(self):
        self.process.terminate()
        self.process.wait()
        shutil.rmtree(self.folder, ignore_errors=True)

    def message(self, seconds=60):
        """The next message, or None where none comes in that time."""
        while b'\0' not in self.rest:
            if not select.select([self.read], [], [], seconds)[0]:
                return None
            more = os.read(self.read, 1 << 20)
            if not more:
                raise OSError('the browser ended')
            self.rest += more
        line, self.rest = self.rest.split(b'\0', 1)
        return json.loads(line)

    def note(self, message):
        method, told = message.get('method'), message.get('params', {})
        if method == 'Runtime.exceptionThrown':
            self.errors.append(json.dumps(told['exceptionDetails'])[:600])
        elif method == 'Log.entryAdded' and told['entry']['level'] == 'error':
            self.errors.append(told['entry']['text'])
        elif method == 'Runtime.consoleAPICalled' and told['type'] in ('error', 'assert'):
            self.errors.append(json.dumps(told['args'])[:600])
        elif method == 'Network.requestWillBeSent':
            self.requests.append(told['request']['url'])

    def call(self, method, **words):
        number = next(self.numbers)
        text = {'id': number, 'method': method, 'params': words}
        if self.session:
            text['sessionId'] = self.session
        os.write(self.write, json.dumps(text).encode() + b'\0')
        while True:
            message = self.message()
            if message is None:
                raise OSError(f'no answer to {method}')
            if message.get('id') == number:
                if 'error' in message:
                    raise OSError(f'{method}: {message["error"]["message"]}')
                return message['result']
            self.note(message)

    def wait(self, seconds):
        """Lets the page go on for so long."""
        end = time.monotonic() + seconds
        while time.monotonic() < end:
            message = self.message(end - time.monotonic())
            if message:
                self.note(message)

    def value(self, text):
        """What an expression of the page's is."""
        made = self.call('Runtime.evaluate', expression=text, returnByValue=True, awaitPromise=True)
        if 'exceptionDetails' in made:
            raise OSError(f'{text}: {made["exceptionDetails"].get("exception", {}).get("description")}')
        return made['result'].get('value')

    def show(self, url, width=1280, height=900, is_dark=False):
        """Opens a page, and waits until it is there."""
        self.call('Emulation.setDeviceMetricsOverride', width=width, height=height, deviceScaleFactor=1, mobile=False)
        scheme = {'name': 'prefers-color-scheme', 'value': 'dark' if is_dark else 'light'}
        self.call('Emulation.setEmulatedMedia', features=[scheme])
        self.call('Page.navigate', url=url)
        for _ in range(600):
            self.wait(0.1)
            if self.value(f"location.href === {json.dumps(url)} && document.documentElement?.dataset.ready === 'yes'"):
                return
        raise OSError(f'{url} is not ready after a minute')

    def key(self, key, shift=False):
        code = {' ': 'Space'}.get(key, key)
        words = {'key': key, 'code': code, 'modifiers': 8 if shift else 0}
        if key == ' ':
            words['text'] = ' '
        self.call('Input.dispatchKeyEvent', type='keyDown', **words)
        self.call('Input.dispatchKeyEvent', type='keyUp', key=key, code=code)

    def mouse(self, kind, x, y):
        is_held = kind in ('mousePressed', 'mouseReleased')
        self.call('Input.dispatchMouseEvent', type=kind, x=x, y=y, button='left' if is_held else 'none',
                  buttons=1 if kind == 'mousePressed' else 0, clickCount=1 if is_held else 0)

    def drag(self, places):
        x, y = places[0]
        self.mouse('mousePressed', x, y)
        for x, y in places[1:]:
            self.call('Input.dispatchMouseEvent', type='mouseMoved', x=x, y=y, button='left', buttons=1)
        self.mouse('mouseReleased', x, y)

    def box(self, name):
        """Where an element of the page is: left, top, width and height."""
        box = f"document.querySelector('{name}').getBoundingClientRect()"
        return self.value(f'(r => [r.left, r.top, r.width, r.height])({box})')

    def picture(self, file, is_whole=True):
        made = self.call('Page.captureScreenshot', format='png', captureBeyondViewport=is_whole)
        with open(file, 'wb') as out:
            out.write(base64.b64decode(made['data']))
