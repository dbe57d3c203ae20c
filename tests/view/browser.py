"""A headless Chromium, driven by its own driver (the WebDriver protocol of the W3C, over HTTP on this machine)."""
import base64
import json
import os
import re
import shutil
import subprocess
import tempfile
import urllib.request

CHROMIUM = next(filter(None, map(shutil.which, ('chromium', 'chromium-browser', 'google-chrome'))), None)
DRIVER = shutil.which('chromedriver')
MISSING = None if CHROMIUM and DRIVER else 'chromium and chromium-driver are not installed'
STARTED = re.compile(rb'started successfully on port (\d+)')
SECONDS = 60
KEYS = {'left': '\ue012', 'up': '\ue013', 'right': '\ue014', 'down': '\ue015', 'home': '\ue011', 'end': '\ue010'}
ELEMENT = 'element-6066-11e4-a52e-4f735466cecf'       # the key of an element, as the protocol has it
ARGUMENTS = ('--headless=new', '--no-sandbox', '--disable-gpu', '--disable-dev-shm-usage', '--no-first-run', '--disable-background-networking',
             '--disable-component-update', '--disable-sync', '--force-device-scale-factor=1', '--hide-scrollbars')


class Browser:
    """A browser with one page; to be used by `with`."""

    def __init__(self):
        self.folder = tempfile.mkdtemp(prefix='mig-view-')
        self.driver = subprocess.Popen([DRIVER, '--port=0'], stdout=subprocess.PIPE, stderr=subprocess.DEVNULL,
                                       env={**os.environ, 'HOME': self.folder})
        self.port = next(int(found[1]) for found in map(STARTED.search, iter(self.driver.stdout.readline, b'')) if found)
        words = [*ARGUMENTS, '--window-size=1280,2400', '--user-data-dir=' + self.folder, 'about:blank']
        wanted = {'browserName': 'chrome', 'goog:loggingPrefs': {'browser': 'ALL', 'performance': 'ALL'},
                  'goog:chromeOptions': {'binary': CHROMIUM, 'args': words}}
        self.session = ''
        self.session = '/session/' + self.call('/session', {'capabilities': {'alwaysMatch': wanted}})['sessionId']

    def __enter__(self):
        return self

    def __exit__(self, *_):
        try:
            self.call('', method='DELETE')
        finally:
            self.driver.terminate()
            self.driver.wait()
            self.driver.stdout.close()
            shutil.rmtree(self.folder, ignore_errors=True)

    def call(self, path, body=None, method=None):
        """What the driver answers."""
        data = None if body is None else json.dumps(body).encode()
        asked = urllib.request.Request('http://127.0.0.1:%d%s%s' % (self.port, self.session, path), data, {'Content-Type': 'application/json'},
                                       method=method or ('GET' if body is None else 'POST'))
        with urllib.request.build_opener(urllib.request.ProxyHandler({})).open(asked, timeout=SECONDS) as answer:
            return json.loads(answer.read().decode())['value']

    def is_shown(self, width, height, is_dark=False):
        """Shows the page so wide and so high, light or dark."""
        self.of_chromium('Emulation.setDeviceMetricsOverride', {'width': width, 'height': height, 'deviceScaleFactor': 1, 'mobile': False})
        self.of_chromium('Emulation.setEmulatedMedia', {'features': [{'name': 'prefers-color-scheme', 'value': 'dark' if is_dark else 'light'}]})
        self.run('const done = arguments[0]; requestAnimationFrame(() => requestAnimationFrame(done));', kind='async')

    def of_chromium(self, command, words):
        return self.call('/goog/cdp/execute', {'cmd': command, 'params': words})

    def open(self, path):
        """Opens a file, and waits until its page is drawn. What was logged before is dropped."""
        for kind in 'browser', 'performance':
            self.logged(kind)
        self.call('/url', {'url': 'file://' + path})
        self.run('''const done = arguments[0], look = () => document.body.dataset.drawn || !document.getElementById('fault').hidden
            ? requestAnimationFrame(() => requestAnimationFrame(done)) : setTimeout(look, 20); look();''', kind='async')

    def run(self, script, *words, kind='sync'):
        return self.call('/execute/' + kind, {'script': script, 'args': list(words)})

    def text(self, selector):
        return self.run('return document.querySelector(arguments[0]).textContent', selector)

    def rows(self, table):
        """The cells of a table's body."""
        return self.run("""return [...document.querySelectorAll('#' + arguments[0] + ' tbody tr')].map(
            row => [...row.cells].map(cell => cell.textContent))""", table)

    def element(self, selector):
        return self.call('/element', {'using': 'css selector', 'value': selector})[ELEMENT]

    def keys(self, selector, *names):
        self.call('/element/%s/value' % self.element(selector), {'text': ''.join(KEYS.get(name, name) for name in names)})

    def click(self, selector):
        self.call('/element/%s/click' % self.element(selector), {})

    def logged(self, kind):
        return self.call('/se/log', {'type': kind})

    def asked_of_the_network(self):
        """The addresses that the page asked for, its own among them; not what the browser's first page does."""
        events = [json.loads(entry['message'])['message'] for entry in self.logged('performance')]
        asked = [event['params'] for event in events if event['method'] == 'Network.requestWillBeSent']
        return [one['request']['url'] for one in asked if not one['documentURL'].startswith('chrome:')]

    def screenshot(self):
        return base64.b64decode(self.call('/screenshot'))
