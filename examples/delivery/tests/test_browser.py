"""The application in headless Chromium, over shadowd itself."""
import functools
import re

from common import LIMIT, Examination, needs_browser, needs_flask, needs_program, wait_until

WIDTHS = (1440, 320)
STARTED, IDLE = [], []  # browsers of this run, and those of them that no test has


def tearDownModule():
    for driver in STARTED:
        driver.quit()


# Looks at the page as it is computed: contrast of each text with what is painted below it, size of what can be pressed, what
# leaves the page to the right. It returns a list of complaints.
LOOK = r"""
const found = [];
const parse = text => { const n = text.match(/[\d.]+/g).map(Number); return n.length === 4 ? n : [...n, 1]; };
const light = c => c.slice(0, 3).map(v => v / 255).map(v => v <= 0.04045 ? v / 12.92 : ((v + 0.055) / 1.055) ** 2.4)
    .reduce((sum, v, k) => sum + v * [0.2126, 0.7152, 0.0722][k], 0);
const ratio = (a, b) => { const [x, y] = [light(a), light(b)].sort((p, q) => q - p); return (x + 0.05) / (y + 0.05); };
const ground = element => {
    for (let at = element; at; at = at.parentElement) {
        const colour = parse(getComputedStyle(at).backgroundColor);
        if (colour[3] === 1) return colour;
        if (colour[3] !== 0) found.push('half transparent ground: ' + at.tagName);
    }
    return [255, 255, 255, 1];
};
const seen = element => { const box = element.getBoundingClientRect(); return box.width > 1 && box.height > 1 && getComputedStyle(element).visibility === 'visible'; };
let texts = 0;
const walk = document.createTreeWalker(document.body, NodeFilter.SHOW_TEXT);
while (walk.nextNode()) {
    const element = walk.currentNode.parentElement, style = getComputedStyle(element);
    if (!walk.currentNode.data.trim() || !seen(element)) continue;
    texts += 1;
    const size = parseFloat(style.fontSize), large = size >= 24 || size >= 18.66 && style.fontWeight >= 700;
    const colour = element.namespaceURI.endsWith('svg') ? style.fill : style.color, value = ratio(parse(colour), ground(element));
    if (value < (large ? 3 : 4.5)) found.push(`contrast ${value.toFixed(2)}: ${walk.currentNode.data.trim().slice(0, 30)}`);
    if (size < 12) found.push(`text of ${size} px: ${walk.currentNode.data.trim().slice(0, 30)}`);
}
if (!texts) found.push('no text');
for (const element of document.querySelectorAll('button, input:not([type=hidden]), a, summary, fieldset label')) {
    const box = element.getBoundingClientRect(), inline = element.tagName === 'A' && !element.classList.contains('button');
    if (element.type === 'radio' || inline ? box.height < 16 : box.height < 24 || box.width < 24) found.push(`small: ${element.outerHTML.slice(0, 60)}`);
    const edge = getComputedStyle(element);
    if (element.tagName !== 'A' && element.type !== 'radio' && parseFloat(edge.borderTopWidth) && ratio(parse(edge.borderTopColor), ground(element.parentElement)) < 3)
        found.push(`faint border: ${element.outerHTML.slice(0, 60)}`);
}
for (const bar of document.querySelectorAll('svg rect'))
    if (ratio(parse(getComputedStyle(bar).fill), [255, 255, 255]) < 3) found.push('faint bar');
if (document.documentElement.scrollWidth > innerWidth) found.push(`wider than the window: ${document.documentElement.scrollWidth}`);
if (!document.documentElement.lang) found.push('no language');
if (document.querySelectorAll('h1').length !== 1) found.push('not one h1');
if (document.querySelectorAll('main').length !== 1) found.push('not one main');
if (!document.title.trim()) found.push('no title');
if (document.querySelector('script:not([src^="/static/"])')) found.push('a script');
const levels = [...document.querySelectorAll('h1, h2, h3, h4')].map(h => +h.tagName[1]);
levels.forEach((level, k) => { if (level > (k ? levels[k - 1] : 0) + 1) found.push('a level of headings is left out'); });
for (const field of document.querySelectorAll('input:not([type=hidden])'))
    if (!field.labels.length) found.push('a field without label');
const ids = [...document.querySelectorAll('[id]')].map(e => e.id);
if (new Set(ids).size !== ids.length) found.push('an id that is there twice');
for (const name of ['aria-labelledby', 'aria-describedby'])
    for (const element of document.querySelectorAll(`[${name}]`))
        for (const id of element.getAttribute(name).split(/\s+/)) if (!document.getElementById(id)) found.push(`${name} ${id} names nothing`);
return found;
"""


# In the colours of a person who needs high contrast: what can be pressed and has no edge that is seen.
EDGES = r"""
const shown = [...document.querySelectorAll('button, .button, label.option, input.code, .field')].filter(one => one.getBoundingClientRect().width > 0);
return shown.filter(one => { const style = getComputedStyle(one);
    return parseFloat(style.borderTopWidth) < 1 || style.borderTopStyle === 'none' || style.borderTopColor === getComputedStyle(document.body).backgroundColor;
}).map(one => one.outerHTML.slice(0, 60));
"""


class InBrowser(Examination):
    """A server, the application, and browsers with a window each."""

    def setUp(self):
        super().setUp()
        self.server = self.start_server()
        self.pages = self.start_pages()
        self.base, self.control = (f"http://127.0.0.1:{self.ports[name]}/" for name in ("listen", "control_listen"))

    def browser(self):
        """A browser without cookies, from an earlier test if one has ended with it."""
        driver = IDLE.pop() if IDLE else self.new_browser(self.options())
        self.addCleanup(self.put_back, driver)
        return driver

    def put_back(self, driver):
        for handle in driver.window_handles[1:]:
            driver.switch_to.window(handle)
            driver.close()
        driver.switch_to.window(driver.window_handles[0])
        driver.execute_cdp_cmd("Network.clearBrowserCookies", {})
        driver.get("about:blank")
        IDLE.append(driver)

    def options(self):
        from selenium import webdriver
        options = webdriver.ChromeOptions()
        options.binary_location = "/usr/bin/chromium"
        for word in ("--headless=new", "--no-sandbox", "--disable-gpu", "--disable-dev-shm-usage", "--window-size=1280,900"):
            options.add_argument(word)
        return options

    def new_browser(self, options):
        from selenium import webdriver
        from selenium.webdriver.chrome.service import Service
        driver = webdriver.Chrome(service=Service("/usr/bin/chromedriver"), options=options)
        driver.set_page_load_timeout(LIMIT)
        STARTED.append(driver)
        return driver

    def without_scripts(self):
        """A browser with scripts off, whose cookies are in the test's folder."""
        options = self.options()
        options.add_argument(f"--user-data-dir={self.path('profile')}")
        options.add_experimental_option("prefs", {"profile.managed_default_content_settings.javascript": 2})
        driver = self.new_browser(options)
        self.addCleanup(driver.quit)
        return driver

    def keys(self, driver, *keys):
        """Presses keys, wherever the focus is."""
        from selenium.webdriver.common.action_chains import ActionChains
        ActionChains(driver).send_keys(*keys).perform()

    def title(self, driver, begins):
        wait_until(lambda: driver.title.startswith(begins), f"{begins!r}; it is {driver.title!r}")

    def sign_in(self, driver, booking):
        driver.get(self.base)
        driver.find_element("id", "code").send_keys(self.desk().issue(booking), "\n")
        self.title(driver, "Before you begin")

    def begin(self, driver, booking):
        self.sign_in(driver, booking)
        driver.find_element("css selector", "button").click()
        self.title(driver, "Item 1 of")

    def choose(self, driver, option):
        driver.find_elements("css selector", ".option")[option].click()
        driver.find_element("css selector", "button").click()

    def text(self, driver):
        return driver.find_element("css selector", "main").text


@needs_flask
@needs_program
@needs_browser
class Sittings(InBrowser):
    def test_a_whole_test_by_keyboard_without_scripts_on_a_laptop_that_is_closed(self):
        """After the fifth item the browser ends. It begins again with what it has on the disk."""
        from selenium.webdriver.common.keys import Keys
        driver, code = self.without_scripts(), self.desk().issue(70)
        driver.get(self.base)
        self.keys(driver, Keys.TAB, code, Keys.ENTER)
        self.title(driver, "Before you begin")
        self.keys(driver, Keys.TAB, Keys.ENTER)
        for step in range(20):
            self.title(driver, f"Item {step + 1} of 20")
            if step == 5:
                shown = self.text(driver)
                driver.quit()
                driver = self.without_scripts()
                driver.get(self.base + "test")
                self.assertEqual(self.text(driver), shown)
            self.keys(driver, Keys.TAB, Keys.SPACE, *[Keys.ARROW_DOWN] * (step % 4), Keys.ENTER)
        self.title(driver, "The test has ended")
        self.assertIn("All 20 items are answered", self.text(driver))
        self.assertNotIn("score", self.text(driver))
        session = self.journal_sessions()[0]
        self.assertEqual((session.booking, len(session.responses)), (70, 20))
        self.assertEqual(session.responses, [self.key_of(item, step % 4) for step, item in enumerate(session.items)])
        self.keys(driver, Keys.TAB, Keys.ENTER)
        self.title(driver, "Sign in")

    @functools.cached_property
    def texts(self):
        from delivery import Delivery
        return Delivery(self.settings(), None).texts

    def key_of(self, item, option):
        """The response that the option is by the item's own file."""
        return self.texts[item].responses[option]

    def test_a_second_tab_and_the_back_button(self):
        driver = self.browser()
        self.begin(driver, 70)
        first = driver.current_window_handle
        driver.switch_to.new_window("tab")
        driver.get(self.base + "test")
        self.choose(driver, 0)
        self.title(driver, "Item 2 of")
        driver.switch_to.window(first)
        self.assertTrue(driver.title.startswith("Item 1 of"))
        self.choose(driver, 3)
        self.title(driver, "Item 2 of")
        self.assertIn("Item 1 was answered before, and the first answer counts.", self.text(driver))
        self.choose(driver, 1)
        self.title(driver, "Item 3 of")
        driver.back()
        if not driver.title.startswith("Item 3 of"):  # the browser showed the old page from its memory
            self.choose(driver, 2)
            self.title(driver, "Item 3 of")
        driver.refresh()
        self.title(driver, "Item 3 of")
        session = self.journal_sessions()[0]
        self.assertEqual(session.responses, [self.key_of(item, option) for item, option in zip(session.items, (0, 1))])

    def test_a_server_that_is_killed_in_the_midst(self):
        driver = self.browser()
        self.begin(driver, 70)
        self.choose(driver, 0)
        self.title(driver, "Item 2 of")
        self.kill(self.server)
        self.choose(driver, 1)
        self.title(driver, "Please wait")
        self.assertIn("Your answer to item 2 is kept.", driver.page_source)
        self.assertEqual(driver.get_cookies()[0]["httpOnly"], True)
        self.start_server()
        self.title(driver, "Item 3 of")  # by itself
        session = self.journal_sessions()[0]
        self.assertEqual(session.responses, [self.key_of(item, option) for item, option in zip(session.items, (0, 1))])

    def test_no_network(self):
        """The application ends, which is to a browser as no network is. The page of the worker comes, and goes on by itself."""
        driver = self.browser()
        driver.set_script_timeout(LIMIT)
        self.begin(driver, 70)
        wait_until(lambda: driver.execute_script("return navigator.serviceWorker.controller !== null"), "the worker is there")
        self.choose(driver, 0)
        self.title(driver, "Item 2 of")
        self.kill(self.pages)
        self.choose(driver, 3)
        self.title(driver, "There is no network")
        self.assertIn("What you answered before is recorded.", self.text(driver))
        self.assertEqual(driver.execute_script("return getComputedStyle(document.querySelector('.button')).backgroundColor"), "rgb(11, 74, 130)")
        kept = driver.execute_async_script("""
            const done = arguments[0], all = [];
            (async () => { for (const name of await caches.keys()) for (const one of await (await caches.open(name)).keys()) all.push(new URL(one.url).pathname); done(all.sort()); })();""")
        self.assertEqual(kept, ["/no-network", "/static/delivery.css", "/static/no_network.js"])
        self.start_pages()
        self.title(driver, "Item 2 of")  # by itself: the answer that did not come is asked again
        self.choose(driver, 1)
        self.title(driver, "Item 3 of")
        session = self.journal_sessions()[0]
        self.assertEqual(session.responses, [self.key_of(item, option) for item, option in zip(session.items, (0, 1))])

    def test_a_pause_and_the_end_of_the_time(self):
        """The page that is open learns of both by itself, and sends the option that is chosen at the end."""
        driver, desk = self.browser(), self.desk()
        self.change_settings(minutes="30")
        self.kill(self.pages)
        self.start_pages()
        self.begin(driver, 70)
        self.assertRegex(self.text(driver), r"Time left: (30:00|29:\d\d)")
        desk.pause(70)
        self.title(driver, "Your test is paused")
        desk.extend(70, 8 - desk.clock(70).left(desk.now()))
        desk.resume(70)
        self.title(driver, "Item 1 of")
        self.assertIn("Less than one minute is left.", self.text(driver))
        driver.find_elements("css selector", ".option")[2].click()
        self.title(driver, "The test has ended")
        self.assertIn("Your time is over", self.text(driver))
        self.assertIn("1 of 20", self.text(driver))
        session = self.journal_sessions()[0]
        self.assertEqual((session.responses, session.closed), ([self.key_of(session.items[0], 2)], True))

    def test_the_end_of_the_time_without_scripts(self):
        self.change_settings(minutes="30")
        self.kill(self.pages)
        self.start_pages()
        driver, desk = self.without_scripts(), self.desk()
        self.begin(driver, 70)
        desk.extend(70, 3 - desk.clock(70).left(desk.now()))
        driver.get(self.base + "test")
        self.assertIn("Time left: 1 min", self.text(driver))
        self.title(driver, "The test has ended")

    def test_two_examinees(self):
        first, second = self.browser(), self.browser()
        self.begin(first, 70)
        self.begin(second, 71)
        for step in range(3):
            self.choose(first, 0)
            self.choose(second, 3)
            self.title(first, f"Item {step + 2} of")
            self.title(second, f"Item {step + 2} of")
        self.choose(first, 0)
        self.title(first, "Item 5 of")
        for session, booking, option, count in zip(self.journal_sessions(), (70, 71), (0, 3), (4, 3)):
            self.assertEqual((session.booking, session.responses),
                             (booking, [self.key_of(item, option) for item in session.items[:count]]))

    def test_a_forged_session_and_a_code_used_twice(self):
        first, second, code = self.browser(), self.browser(), self.desk().issue(70)
        for driver in (first, second):
            driver.get(self.base)
            driver.find_element("id", "code").send_keys(code, "\n")
        self.title(first, "Before you begin")
        self.title(second, "Error: Sign in")
        self.assertIn("it was used before", self.text(second))
        second.get(self.base + "test")
        self.title(second, "Sign in")
        value = first.get_cookie("delivery")["value"]
        second.add_cookie({"name": "delivery", "value": value[:9] + ("A" if value[9] != "A" else "B") + value[10:]})
        second.get(self.base + "test")
        self.title(second, "Sign in")
        self.assertEqual(self.journal_sessions(), [])


@needs_flask
@needs_program
@needs_browser
class Looks(InBrowser):
    """Each page, wide and as narrow as text may have to reflow to: names, contrast, sizes, and nothing beside the window."""
    example = "aggression"

    def look(self, driver, name):
        for width in WIDTHS:
            driver.execute_cdp_cmd("Emulation.setDeviceMetricsOverride", {"width": width, "height": 800, "deviceScaleFactor": 1, "mobile": width < 600})
            self.assertEqual(driver.execute_script(LOOK), [], f"{name} at {width}")
        driver.execute_cdp_cmd("Emulation.clearDeviceMetricsOverride", {})
        driver.execute_cdp_cmd("Emulation.setEmulatedMedia", {"features": [{"name": "forced-colors", "value": "active"}]})
        self.assertTrue(driver.execute_script("return matchMedia('(forced-colors: active)').matches"))
        self.assertEqual(driver.execute_script(EDGES), [], f"{name} in forced colours")
        driver.execute_cdp_cmd("Emulation.setEmulatedMedia", {"features": []})
        nodes = driver.execute_cdp_cmd("Accessibility.getFullAXTree", {})["nodes"]
        named = [(node["role"]["value"], node.get("name", {}).get("value", "").strip()) for node in nodes
                 if not node["ignored"] and node["role"]["value"] in ("radio", "button", "textbox", "link", "radiogroup", "group", "img", "image",
                                                                      "region", "progressbar", "progressIndicator", "meter", "table")]
        self.assertEqual([one for one in named if not one[1]], [], name)
        return named

    def focused(self, driver):
        """The outline of what has the focus."""
        return driver.execute_script("const s = getComputedStyle(document.activeElement); return [document.activeElement.tagName, s.outlineStyle, parseFloat(s.outlineWidth)]")

    def test_each_page(self):
        driver = self.browser()
        first = driver.current_window_handle
        driver.switch_to.new_window("tab")
        drawn, second = self.drawn(driver), driver.current_window_handle
        driver.switch_to.window(first)
        self.first_pages(driver)
        self.item_pages(driver)
        self.last_pages(driver)
        driver.switch_to.window(second)
        wait_until(lambda: drawn not in driver.page_source and "Of 1 finished sessions" in driver.page_source, "the control room renews itself")
        driver.get(self.control + "examination?renew=no")
        self.look(driver, "the examination")
        driver.find_element("css selector", "summary").click()
        self.look(driver, "the examination with its table")
        self.staff_pages(driver)

    def first_pages(self, driver):
        """From the sign-in to the first item."""
        from selenium.webdriver.common.keys import Keys
        driver.get(self.base)
        self.assertIn(("textbox", "Code"), self.look(driver, "sign in"))
        driver.find_element("id", "code").send_keys("WRONG\n")
        self.title(driver, "Error: Sign in")
        self.look(driver, "a wrong code")
        self.sign_in(driver, 70)
        self.look(driver, "welcome")
        driver.get(self.base + "no-network")
        self.look(driver, "no network")
        driver.get(self.base + "test")
        self.keys(driver, Keys.TAB)
        self.assertEqual(self.focused(driver), ["BUTTON", "solid", 3])
        driver.find_element("css selector", "button").click()
        self.title(driver, "Item 1 of 9")

    def item_pages(self, driver):
        """An item as it is looked at, answered wrongly, printed and paused."""
        from selenium.webdriver.common.keys import Keys
        named = self.look(driver, "an item")
        self.assertEqual([name for role, name in named if role == "radio"], ["No", "Perhaps", "Yes"])
        self.assertTrue(any(role in ("group", "radiogroup") and "In this situation" in name for role, name in named), named)
        self.keys(driver, Keys.TAB, Keys.TAB)
        self.assertEqual(self.focused(driver), ["INPUT", "solid", 3])
        driver.execute_script("document.querySelectorAll('input').forEach(one => one.required = false)")
        driver.find_element("css selector", "button").click()
        self.title(driver, "Error: Item 1 of 9")
        self.look(driver, "an item without an answer")
        driver.execute_script("document.documentElement.className = 'contrast'")
        self.look(driver, "an item in high contrast")
        driver.execute_script("document.documentElement.className = ''")
        self.assertTrue(driver.execute_script("const one = document.querySelector('.passage img'); return one.complete && one.naturalWidth > 0"))
        driver.execute_cdp_cmd("Emulation.setEmulatedMedia", {"media": "print"})
        self.assertFalse(driver.find_element("css selector", "button").is_displayed())
        self.assertTrue(driver.find_element("css selector", ".passage").is_displayed())
        self.assertEqual(len([one for one in driver.find_elements("css selector", ".option") if one.is_displayed()]), 3)
        driver.execute_cdp_cmd("Emulation.setEmulatedMedia", {"media": ""})
        self.desk().pause(70)
        driver.get(self.base + "test?renew=no")
        self.look(driver, "a pause")
        self.desk().resume(70)
        driver.get(self.base + "test")

    def last_pages(self, driver):
        """From an answer while the server is away to the end of the test."""
        self.kill(self.server)
        self.choose(driver, 0)
        self.title(driver, "Please wait")
        driver.get(self.base + "test?renew=no")
        self.look(driver, "please wait")
        self.start_server()
        driver.get(self.base + "test")
        for step in range(1, 9):
            self.title(driver, f"Item {step + 1} of 9")
            self.choose(driver, step % 3)
        self.title(driver, "The test has ended")
        self.look(driver, "the last page")
        driver.get(self.base + "nowhere")
        self.look(driver, "a fault")

    def staff_pages(self, driver):
        """A proctor gives extra time and a new code, on pages whose fields have names."""
        self.desk().issue(71)
        driver.get(self.control + "?renew=no")  # without the script, which is loaded here with a clock that stands still
        driver.execute_script("setInterval = act => { window.renew = act; }; window.mark = 1")
        driver.execute_script("const one = document.createElement('script'); one.src = '/static/control.js'; document.head.append(one)")
        wait_until(lambda: driver.execute_script("return window.renew !== undefined"), "the script")
        driver.find_element("id", "text").send_keys("7")
        driver.execute_script("document.activeElement.blur(); window.renew()")
        self.assertEqual(driver.execute_script("return [window.mark, document.getElementById('text').value]"), [1, "7"])
        driver.get(self.control + "?renew=no")
        self.assertIn(("table", "Bookings 1 to 2 of 2. A line is marked where the last answer is more than 180 seconds old. Times are in UTC."), self.look(driver, "bookings"))
        driver.find_element("link text", "71").click()
        self.title(driver, "Booking 71")
        self.look(driver, "a booking")
        driver.find_element("link text", "Extra time …").click()
        self.title(driver, "Extra time: booking 71")
        named = self.look(driver, "an action")
        self.assertEqual([name for role, name in named if role == "textbox"], ["Minutes", "The booking, once more", "Your name", "Why (a remark for the log, if there is one)"])
        for name, text in (("minutes", "10"), ("booking", "70"), ("name", "A. Proctor")):
            driver.find_element("id", name).send_keys(text)
        driver.find_element("css selector", "main button").click()
        self.title(driver, "Error: Extra time: booking 71")
        self.look(driver, "an action that was typed wrong")
        driver.find_element("id", "booking").clear()
        driver.find_element("id", "booking").send_keys("71\n")
        self.title(driver, "Booking 71")
        self.assertIn("It is done for booking 71", self.text(driver))
        self.assertEqual(self.desk().clock(71).extra, 600)
        driver.get(self.control + "bookings/71/new-code")
        driver.find_element("id", "booking").send_keys("71")
        driver.find_element("id", "name").send_keys("A. Proctor\n")
        self.title(driver, "New code: booking 71")
        self.look(driver, "a new code")
        driver.get(self.control + "log")
        self.look(driver, "the log")
        driver.find_element("css selector", "nav button").click()
        self.title(driver, "Sign in")

    def drawn(self, driver):
        """Signs in to the control room: when its page of the examination was drawn."""
        self.start_pages("control_room", "control_listen")
        driver.get(self.control)
        self.title(driver, "Sign in")
        self.look(driver, "the sign-in of staff")
        driver.find_element("id", "user").send_keys("actor")
        driver.find_element("id", "password").send_keys("q" * 16, "\n")
        self.title(driver, "Bookings")
        driver.get(self.control + "examination")
        self.title(driver, "Examination")
        return re.search(r"Drawn at (\S+)", self.text(driver)).group(1)


@needs_flask
@needs_browser
class TheLook(InBrowser):
    """The check of pages itself finds what it has to."""

    def setUp(self):
        Examination.setUp(self)

    def test_complaints(self):
        driver = self.browser()
        page = ("<!doctype html><title> </title><h1>a</h1><h1>b</h1><h3>c</h3><p style='color:#888'>faint</p><p style='font-size:9px'>tiny</p>"
                "<input id=x><input id=x style='border:1px solid #ddd'><a class=button style='display:block;width:9px;height:9px'></a><div style='width:2000px'>w</div>"
                "<p aria-labelledby=none>x</p><svg><rect width=9 height=9 style='fill:#eee'/></svg>")
        path = self.write("page.html", page)
        driver.get("file://" + path)
        found = " | ".join(driver.execute_script(LOOK))
        for complaint in ("contrast 3.54: faint", "text of 9 px: tiny", "small: <a", "faint border", "faint bar", "wider than the window", "no language",
                          "not one h1", "not one main", "no title", "a level of headings", "a field without label", "an id that is there twice", "none names nothing"):
            self.assertIn(complaint, found)
