"""A headless Chromium of Debian's, driven by python3-selenium: what people press and type, what they see, pictures in light, dark and at
390 pixels, and a fixed list of what makes a page usable by everybody. Each wait has a limit."""
import os, shutil, tempfile, time
from selenium import webdriver
from selenium.common.exceptions import WebDriverException
from selenium.webdriver.chrome.service import Service
from selenium.webdriver.common.action_chains import ActionChains
from selenium.webdriver.common.by import By
from selenium.webdriver.common.keys import Keys

# Each rule gives what breaks it. Colours are put over what stands behind them; a text that isn't shown has no contrast.
RULES = r"""
const seen = it => it.checkVisibility({checkOpacity: true, checkVisibilityCSS: true}) && it.getClientRects().length
const all = what => [...document.querySelectorAll(what)].filter(seen)
const short = it => (it.outerHTML || '').slice(0, 120)
const parse = text => { const n = text.match(/[\d.]+/g).map(Number); return [n[0], n[1], n[2], n[3] ?? 1] }
const over = (top, below) => [0, 1, 2].map(i => top[i] * top[3] + below[i] * (1 - top[3])).concat(1)
const dark = matchMedia('(prefers-color-scheme: dark)').matches
function ground(it) {
  const chain = []
  for (let at = it; at; at = at.parentElement) chain.push(parse(getComputedStyle(at).backgroundColor))
  return chain.reverse().reduce((below, top) => over(top, below), dark ? [18, 18, 18, 1] : [255, 255, 255, 1])
}
const linear = v => v <= .03928 ? v / 12.92 : ((v + .055) / 1.055) ** 2.4
const bright = c => { const [r, g, b] = c.map(v => linear(v / 255)); return .2126 * r + .7152 * g + .0722 * b }
const contrast = (one, other) => { const [a, b] = [bright(one), bright(other)].sort((x, y) => y - x); return (a + .05) / (b + .05) }
const ids = [...document.querySelectorAll('[id]')].map(it => it.id)
const faults = []
const rule = (name, bad) => { for (const it of bad) faults.push(name + ': ' + (typeof it == 'string' ? it : short(it))) }
rule('a page has a language', document.documentElement.lang ? [] : ['none'])
rule('a page has a title', document.title.trim() ? [] : ['none'])
const first = `${all('main').length} and ${all('h1').length}`
rule('a page has one main part and one first heading', first == '1 and 1' ? [] : [first])
const levels = [...document.querySelectorAll('h1,h2,h3,h4,h5,h6')].map(it => Number(it.tagName[1]))
rule('headings skip no level', levels.filter((level, at) => at && level > levels[at - 1] + 1).map(String))
rule('a field has a label', all('input,select,textarea').filter(it => !it.labels?.length && !it.getAttribute('aria-label')))
rule('an image has a text', [...document.querySelectorAll('img')].filter(it => !it.hasAttribute('alt')))
rule('no id stands twice', ids.filter((id, at) => ids.indexOf(id) != at))
for (const name of ['aria-labelledby', 'aria-describedby', 'aria-controls', 'for']) {
  const lost = it => !document.getElementById(it.getAttribute(name))
  rule(`${name} names what is there`, [...document.querySelectorAll(`[${name}]`)].filter(lost))
}
rule('a table has heads and a caption', all('table').filter(it => !it.caption || [...it.querySelectorAll('th')].some(th => !th.scope)))
rule('no order of tabs is forced', [...document.querySelectorAll('[tabindex]')].filter(it => it.tabIndex > 0))
rule('what is pressed is 24 pixels high and wide', all('button,select,summary,input:not([type=checkbox]):not([type=radio])')
  .filter(it => it.getBoundingClientRect().height < 24 || it.getBoundingClientRect().width < 24))
const wide = document.documentElement.scrollWidth
rule('the page is no wider than the window', wide > innerWidth ? [`${wide} > ${innerWidth}`] : [])
const hasText = it => [...it.childNodes].some(node => node.nodeType == 3 && node.data.trim())
const texts = all('body *').filter(it => hasText(it) && !it.closest('.visually-hidden,option'))
const clear = it => contrast(over(parse(getComputedStyle(it).color), ground(it)), ground(it))
rule('a text has a contrast of 4.5', texts.filter(it => !it.disabled && clear(it) < 4.5).map(it => clear(it).toFixed(2) + ' ' + short(it)))
rule('a field has a border of contrast 3', all('input.form-control,select,textarea')
  .filter(it => contrast(over(parse(getComputedStyle(it).borderTopColor), ground(it)), ground(it.parentElement)) < 3))
return faults
"""
# Notes each part that Tab comes to, and whether it shows that.
WATCH = r"""
document.querySelectorAll('[data-reached]').forEach(it => delete it.dataset.reached)
window.hidden = []
const watch = event => {
  const it = event.target, style = getComputedStyle(it)
  // where this begins, which is no place that Tab comes to
  if (it == document.body) return
  const shown = style.outlineStyle != 'none' && parseFloat(style.outlineWidth) >= 2
  if (!it.dataset.reached && !shown) window.hidden.push(it.outerHTML.slice(0, 100))
  it.dataset.reached = '1'
}
if (!window.watched) document.addEventListener('focusin', window.watched = watch)
document.body.tabIndex = -1; document.body.focus(); document.body.removeAttribute('tabindex'); scrollTo(0, 0)
return document.querySelectorAll('a[href],button,input,select,textarea,summary,[tabindex]').length + 2
"""
REACHABLE = r"""
// a question that is open keeps all others away
const within = document.querySelector('dialog[open]') ?? document
const pressed = [...within.querySelectorAll('a[href],button,input,select,textarea,summary,[tabindex]')]
return pressed.filter(it => it.tabIndex >= 0 && !it.disabled && it.checkVisibility()
  && !(it.type == 'radio' && !it.checked) && !it.dataset.reached).map(it => it.outerHTML.slice(0, 100))
"""
NAMED = {"button", "link", "textbox", "searchbox", "combobox", "checkbox", "radio", "tab", "tabpanel", "dialog", "table", "navigation"}


class Lost(Exception):
    """What a page should have shown and didn't."""


class Person:
    """Somebody at a browser of their own, who shares no cookie with the others."""

    def __init__(self, folder):
        options = webdriver.ChromeOptions()
        words = ["--headless=new", "--no-first-run", "--disable-gpu", "--disable-dev-shm-usage", "--no-proxy-server",
                 "--disable-extensions", "--mute-audio", "--window-size=1100,900", "--hide-scrollbars",
                 # three people at once are all in front of their pages
                 "--disable-renderer-backgrounding", "--disable-backgrounding-occluded-windows"]
        for word in words + (["--no-sandbox"] if os.geteuid() == 0 else []):
            options.add_argument(word)
        self.profile, self.folder = tempfile.mkdtemp(prefix="front-browser-"), folder
        options.add_argument(f"--user-data-dir={self.profile}")
        options.set_capability("goog:loggingPrefs", {"browser": "ALL"})
        self.driver = webdriver.Chrome(options=options, service=Service("/usr/bin/chromedriver"))
        self.driver.set_page_load_timeout(60)
        self.driver.set_script_timeout(60)

    def close(self):
        self.driver.quit()
        shutil.rmtree(self.profile, ignore_errors=True)

    def run(self, script, *given):
        return self.driver.execute_script(script, *given)

    def go(self, url):
        self.driver.get(url)

    def at(self):
        return self.driver.current_url

    def text(self):
        return self.run("return document.body ? document.body.innerText : ''")

    def until(self, what, holds, most=30):
        end, fault = time.monotonic() + most, ""
        while time.monotonic() < end:
            try:
                if given := holds():
                    return given
            except WebDriverException as lost:
                # a page that is just drawn anew hasn't the part any more
                fault = lost.msg
            except IndexError:
                fault = "nothing of it is shown"
            time.sleep(0.1)
        raise Lost(f"{what} didn't come within {most} seconds {fault}; {self.at()} shows: {self.text()[:600]}")

    def sees(self, text, most=30):
        self.until(repr(text), lambda: text in self.text(), most)

    def sees_title(self, text, most=30):
        self.until(f"the page {text!r}", lambda: any(it.text == text for it in self.has("h1")), most)

    def has(self, what):
        return self.run("return [...document.querySelectorAll(arguments[0])].filter(it => it.checkVisibility())", what)

    def named(self, name, within="body"):
        """What can be pressed and is called so, by its text or by what a screen reader says."""
        pressed = ", ".join(f"{within} {it}" for it in ("button", "a", "summary", "[role=tab]"))
        return self.run("""return [...document.querySelectorAll(arguments[1])].find(it => it.checkVisibility()
            && [it.innerText.trim(), it.getAttribute('aria-label')].includes(arguments[0]))""", name, pressed)

    def press(self, name, within="body", most=30):
        self.until(f"{name!r} to press", lambda: self.click(self.named(name, within)), most)

    def click(self, found):
        """Presses a part of the page. One that was just drawn anew is looked for once more by who waits."""
        if found:
            self.run("arguments[0].scrollIntoView({block: 'center', behavior: 'instant'})", found)
            found.click()
        return found is not None

    def field(self, label, within="body"):
        script = "return [...document.querySelectorAll(arguments[1] + ' label')].find(it => it.textContent == arguments[0])?.control"
        return self.until(f"the field {label!r}", lambda: self.run(script, label, within), 20)

    def type(self, label, text, within="body"):
        field = self.field(label, within)
        field.clear()
        field.send_keys(text)

    def choose(self, label, option):
        field = self.field(label)
        options = field.find_elements(By.TAG_NAME, "option")
        next(it for it in options if it.text == option).click()

    def keys(self, *keys):
        for key in keys:
            self.driver.switch_to.active_element.send_keys(key)

    def look(self, colours="light", width=None):
        """The page in these colours, and as wide as that; without a width as the window is."""
        self.driver.execute_cdp_cmd("Emulation.setEmulatedMedia", {"features": [{"name": "prefers-color-scheme", "value": colours}]})
        if not width:
            return self.driver.execute_cdp_cmd("Emulation.clearDeviceMetricsOverride", {})
        size = {"width": width, "height": 900 if width > 500 else 844, "deviceScaleFactor": 1, "mobile": False}
        self.driver.execute_cdp_cmd("Emulation.setDeviceMetricsOverride", size)

    def picture(self, name):
        self.driver.save_screenshot(f"{self.folder}/{name}.png")

    def faults(self):
        """What breaks a rule of the list as the page is shown now."""
        tree = self.driver.execute_cdp_cmd("Accessibility.getFullAXTree", {})["nodes"]
        nameless = [it["role"]["value"] for it in tree if not it.get("ignored") and it.get("role", {}).get("value") in NAMED
                    and not it.get("name", {}).get("value")]
        return self.run(RULES) + [f"a screen reader has a name for each {it}" for it in nameless]

    def by_keys(self):
        """What can't be reached by Tab alone, or doesn't show that it is reached."""
        ActionChains(self.driver).send_keys(Keys.TAB * self.run(WATCH)).perform()
        hidden = [f"what is reached by Tab shows it: {it}" for it in self.run("return window.hidden")]
        return hidden + [f"Tab reaches it: {it}" for it in self.run(REACHABLE)]

    def words_of_console(self):
        """What the browser says of scripts that fail or are refused."""
        severe = [it["message"] for it in self.driver.get_log("browser") if it["level"] == "SEVERE"]
        return [it for it in severe if "responded with a status of" not in it]
