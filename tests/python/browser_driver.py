"""Drives Chromium by selenium. Each line of standard input is a command: a JSON array of its name and its arguments. The driver answers
each command by a line of JSON, with the result or with an error. It runs under a Python that has selenium, which may differ from the Python
that runs the tests."""

import json
import sys

from selenium import webdriver
from selenium.common.exceptions import StaleElementReferenceException
from selenium.webdriver.common.action_chains import ActionChains
from selenium.webdriver.common.by import By
from selenium.webdriver.common.keys import Keys
from selenium.webdriver.chrome.service import Service
from selenium.webdriver.support.ui import Select

OPTIONS = (
    '--headless=new', '--no-sandbox', '--disable-gpu', '--disable-dev-shm-usage', '--disable-extensions', '--no-first-run', '--mute-audio',
    '--disable-background-networking', '--disable-renderer-backgrounding', '--disable-backgrounding-occluded-windows',
    '--disable-background-timer-throttling', '--hide-scrollbars', '--force-device-scale-factor=1', '--force-prefers-reduced-motion',
)


SIZE = (1280, 860)  # of the page


class Commands:
    """The commands of the driver. A selector is a CSS selector, and names the first element that matches it."""

    def __init__(self, chromium, driver, room):
        options = webdriver.ChromeOptions()
        options.binary_location = chromium
        for word in (*OPTIONS, f'--user-data-dir={room}/profile', '--window-size=1280,860'):
            options.add_argument(word)
        options.add_experimental_option('prefs', {'download.default_directory': f'{room}/downloads', 'download.prompt_for_download': False})
        options.set_capability('goog:loggingPrefs', {'browser': 'WARNING'})
        self.driver = webdriver.Chrome(service=Service(driver, log_path=f'{room}/driver.log'), options=options)
        self.driver.set_script_timeout(60)

    def find(self, selector):
        """The first element that matches a selector."""
        return self.driver.find_element(By.CSS_SELECTOR, selector)

    def go(self, address):
        """Opens an address in the window."""
        self.driver.get(address)

    def window(self, address):
        """Opens an address in a new window, drives that window from then on, and returns its name."""
        self.driver.switch_to.new_window('window')
        self.driver.get(address)
        return self.driver.current_window_handle

    def name(self):
        """The name of the window that is driven."""
        return self.driver.current_window_handle

    def switch(self, name):
        """Drives the window of a name."""
        self.driver.switch_to.window(name)

    def close(self):
        """Closes the window that is driven, and drives the first one."""
        self.driver.close()
        self.driver.switch_to.window(self.driver.window_handles[0])

    def begin(self):
        """Resets the browser between tests: closes all windows but one, and gives that one its first size, an empty page and an empty
        console."""
        while len(self.driver.window_handles) > 1:
            self.driver.switch_to.window(self.driver.window_handles[-1])
            self.driver.close()
        self.driver.switch_to.window(self.driver.window_handles[0])
        self.driver.get('about:blank')
        self.size(*SIZE)
        self.scheme('light')
        self.log()

    def run(self, code, *words):
        """Runs the body of an asynchronous function in the page, and returns its result."""
        whole = f'const done = arguments[arguments.length - 1]; const words = [...arguments].slice(0, -1); (async () => {{ {code} }})()'
        found = self.driver.execute_async_script(f'{whole}.then((it) => done([it ?? null]), (error) => done([null, String(error)]));', *words)
        if len(found) > 1:
            raise ValueError(found[1])
        return found[0]

    def click(self, selector):
        """Clicks an element. If the page redraws the element in the meantime, the element is looked up again."""
        try:
            self.find(selector).click()
        except StaleElementReferenceException:
            self.find(selector).click()

    def double(self, selector):
        """Double-clicks an element."""
        ActionChains(self.driver).double_click(self.find(selector)).perform()

    def type(self, selector, *words):
        """Types texts and keys, as `Keys.ENTER`, into an element."""
        self.find(selector).send_keys(*[_key(it) for it in words])

    def choose(self, selector, text):
        """Selects the option of a list by its text."""
        Select(self.find(selector)).select_by_visible_text(text)

    def keys(self, *words):
        """Types into the element that has the focus. A word such as `Ctrl+x` holds the first key down while it presses the second."""
        chain = ActionChains(self.driver)
        for word in words:
            *held, key = word.split('+') if len(word) > 1 else [word]
            for it in held:
                chain.key_down(HELD[it])
            chain.send_keys(_key(key))
            for it in held:
                chain.key_up(HELD[it])
        chain.perform()

    def drag(self, one, other, part=0.5, drop=True):
        """Drags an element onto another one, at a fraction of its height (0 is the top, 1 the bottom). Without `drop` the button stays
        pressed."""
        self.run('await new Promise((done) => requestAnimationFrame(() => requestAnimationFrame(() => done())));')
        target = self.find(other)
        height = target.size['height']
        chain = ActionChains(self.driver, duration=30).click_and_hold(self.find(one)).move_by_offset(8, 8)
        chain.move_to_element_with_offset(target, 0, int((part - 0.5) * height))
        (chain.release() if drop else chain.send_keys(Keys.ESCAPE).release()).perform()

    def file(self, selector, path):
        """Chooses a file in a file field."""
        self.find(selector).send_keys(path)

    def size(self, width, height):
        """Sets the size of the page in pixels."""
        self.driver.execute_cdp_cmd(
            'Emulation.setDeviceMetricsOverride', {'width': width, 'height': height, 'deviceScaleFactor': 1, 'mobile': False}
        )

    def scheme(self, name):
        """Sets the preferred colour scheme to `light` or `dark`."""
        self.driver.execute_cdp_cmd('Emulation.setEmulatedMedia', {'features': [{'name': 'prefers-color-scheme', 'value': name}]})

    def shot(self, path):
        """Saves a screenshot of the page as a file."""
        self.driver.save_screenshot(path)

    def log(self):
        """The messages on the browser's console, from warnings upwards."""
        return [it['message'] for it in self.driver.get_log('browser')]


HELD = {'Ctrl': Keys.CONTROL, 'Alt': Keys.ALT, 'Shift': Keys.SHIFT}


def _key(word):
    """The key that a word names, or the word itself as a text."""
    return getattr(Keys, word[5:]) if word.startswith('Keys.') else word


def main():
    """Starts the browser, and runs the commands of standard input until it ends."""
    commands = Commands(*sys.argv[1:])
    try:
        print('[]', flush=True)
        for line in sys.stdin:
            name, *words = json.loads(line)
            try:
                answer = [getattr(commands, name)(*words)]
            except Exception as error:
                answer = [None, f'{type(error).__name__}: {error}']
            print(json.dumps(answer, default=str), flush=True)
    finally:
        commands.driver.quit()


if __name__ == '__main__':
    main()
