"""Looks at a page in a browser: checks of what it shows, and pictures of it."""
import os
import pathlib
import tempfile

from support.browser import Browser
from support.checks import check

WIDE, NARROW = 1280, 390
PICTURES = pathlib.Path(
    os.environ.get("BG_DASHBOARD_PICTURES") or tempfile.mkdtemp(prefix="bg_dashboard_")
)
LEAST_CONTRAST = 4.5  # of text and what is behind it (WCAG 2.1, 1.4.3)
# The texts whose contrast is too low, with what it is.
FAINT_TEXTS = """const numbers = (text) => text.match(/[0-9.]+/g).map(Number);
const part = (value) => value <= 10.31 ? value / 3294 : ((value / 255 + 0.055) / 1.055) ** 2.4;
const luminance = ([red, green, blue]) => 0.2126 * part(red) + 0.7152 * part(green) + 0.0722 * part(blue);
const mixed = (over, under, share) => over.slice(0, 3).map((each, place) => each * share + under[place] * (1 - share));
const behind = (node) => {
  if (!node) return [255, 255, 255];
  const own = numbers(getComputedStyle(node).backgroundColor), share = own[3] ?? 1;
  return share === 1 ? own : mixed(own, behind(node.parentElement), share);
};
const opacity = (node) => node ? Number(getComputedStyle(node).opacity) * opacity(node.parentElement) : 1;
const found = [];
for (const node of document.querySelectorAll("body *")) {
  const has = [...node.childNodes].some((each) => each.nodeType === Node.TEXT_NODE && each.textContent.trim() !== "");
  if (!has || !node.checkVisibility() || node.matches("noscript *, script, button:disabled")) continue;
  const back = behind(node), text = mixed(numbers(getComputedStyle(node).color), back, opacity(node));
  const [dark, light] = [luminance(text), luminance(back)].sort((one, other) => one - other);
  const ratio = (light + 0.05) / (dark + 0.05);
  if (ratio < arguments[0]) found.push(`${node.tagName}.${node.className} ${node.textContent.trim().slice(0, 40)}: ${ratio.toFixed(2)}`);
}
return found"""


def open_page(browser: Browser, address: str) -> None:
    browser.size(WIDE, 900)
    browser.open(address)


def picture(browser: Browser, name: str, width: int = WIDE) -> None:
    browser.fit(width)
    browser.screenshot(PICTURES / f"{name}.png")


def check_shown(name: str, browser: Browser, selector: str, *words: str) -> None:
    """A check that the page comes to show these words in time."""
    is_shown = browser.shows(selector, *words)
    check(name, words if is_shown else browser.text(selector), words)


def check_no_element(browser: Browser) -> None:
    """A check that no text became an element, and none ran as a script."""
    script = "return [document.querySelectorAll('main script, main img, dialog script, dialog img').length, window.taken ?? null]"
    check("and it is no element", browser.run(script), [0, None])


def check_not_cut(browser: Browser) -> None:
    check(
        "nothing is cut on a narrow window",
        browser.is_true("return document.documentElement.scrollWidth <= innerWidth"),
        True,
    )


def check_contrast(browser: Browser, scheme: str) -> None:
    """A check that each text has contrast in a scheme."""
    browser.scheme(scheme)
    check(f"texts that are too faint, {scheme}", browser.run(FAINT_TEXTS, LEAST_CONTRAST), [])
