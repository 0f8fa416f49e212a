"""The page in a browser without a window: the slider moved, a history read, holders switched, keys used."""
import shutil
from pathlib import Path

import pytest

from conftest import TOP, bgt, needs_bgt

webdriver = pytest.importorskip("selenium.webdriver")
CHROMIUM, DRIVER = shutil.which("chromium"), shutil.which("chromedriver")
pytestmark = [needs_bgt, pytest.mark.skipif(not (CHROMIUM and DRIVER), reason="chromium and its driver are not there")]

KEPT = Path(__file__).resolve().parent / "out"


@pytest.fixture
def browser():
    from selenium.webdriver.chrome.service import Service
    options = webdriver.ChromeOptions()
    for word in ("--headless=new", "--no-sandbox", "--disable-dev-shm-usage", "--disable-gpu", "--window-size=1200,800"):
        options.add_argument(word)
    options.binary_location = CHROMIUM
    options.set_capability("goog:loggingPrefs", {"browser": "ALL"})
    it = webdriver.Chrome(service=Service(DRIVER), options=options)
    yield it
    it.quit()


def opened(browser, geo, name, tmp_path):
    """The page of an example's register, and a short way to read a part of it."""
    bgt("load", name, messages=(TOP / "examples" / f"{name}.txt").read_bytes())
    assert geo("page", name, "-o", "page.html").status == 0
    page = (tmp_path / "page.html").read_text()
    assert "http" not in page.replace("http-equiv", "").replace("http://www.w3.org/2000/svg", "")
    browser.get(f"file://{tmp_path}/page.html")
    return lambda part: browser.find_element("id", part)


def shown(browser):
    """The identifications that are seen."""
    return {it.get_attribute("data-ident")[-2:] for it in browser.find_elements("css selector", "#map path[data-ident]") if it.is_displayed()}


def test_slider_click_and_keys(browser, geo, tmp_path):
    from selenium.webdriver.common.keys import Keys
    part = opened(browser, geo, "street", tmp_path)
    assert part("moment").text == "2026-11-04 09:00:00 (3 of 3)"
    assert shown(browser) == {"01", "02", "03", "04", "05", "06"}
    part("when").send_keys(Keys.ARROW_LEFT)
    assert part("moment").text == "2026-11-03 09:00:00 (2 of 3)"
    assert shown(browser) == {"01", "02", "03", "04", "05", "06", "07"}
    browser.find_element("css selector", 'path[data-ident$="07"]').click()
    history = part("history").text
    assert "G0307.00000000000000000000000000000007" in history
    assert "2026-11-03 09:00:00\nuntil 2026-11-04 09:00:00, ended 2026-11-04" in history and "pand, level 0, from 2026-11-03" in history
    KEPT.mkdir(exist_ok=True)
    assert browser.save_screenshot(str(KEPT / "page.png"))
    part("map").send_keys(Keys.ARROW_RIGHT)
    assert "wegdeel, level 0, from 2026-11-01" in part("history").text
    before = part("map").get_dom_attribute("viewBox")
    part("map").send_keys("+")
    assert part("map").get_dom_attribute("viewBox") != before
    part("map").send_keys("0")
    assert part("map").get_dom_attribute("viewBox") == before
    part("earlier").click()
    assert part("moment").text == "2026-11-02 09:00:00 (1 of 3)"
    assert browser.get_log("browser") == []


def test_holders_are_switched(browser, geo, tmp_path):
    part = opened(browser, geo, "two-holders", tmp_path)
    every = browser.find_elements("css selector", "#map path[data-ident]")
    assert {it.get_attribute("data-ident")[:5] for it in every if it.is_displayed()} == {"G0001"}
    part("earlier").click()
    seen = {it.get_attribute("data-ident")[:5] for it in browser.find_elements("css selector", "#map path[data-ident]") if it.is_displayed()}
    assert seen == {"G0001", "G0002"}
    browser.find_element("css selector", 'input[data-holder="G0001"]').click()
    seen = {it.get_attribute("data-ident")[:5] for it in browser.find_elements("css selector", "#map path[data-ident]") if it.is_displayed()}
    assert seen == {"G0002"}
