#!/usr/bin/env python3
"""Uses the page of the server by Chromium: drops a file, reads the verdict, and looks at what the
browser says of it.

    tests/packages/serve_browser.py [--pictures FOLDER] [--megabytes N] [PYTHON]

It needs chromium, chromium-driver and python3-selenium, and says so if they are not there. FOLDER
gets a picture of each page at 1280 and 400 pixels. A file of N MB is dropped (50). PYTHON runs the
server, /usr/bin/python3 if left out. The last line is 'N passed, M failed'.
"""
import argparse
import os
import pathlib
import shutil
import subprocess
import sys
import tempfile
import time

ROOT = pathlib.Path(__file__).resolve().parent.parent.parent
EXAMPLES = ROOT / "examples"
WIDTHS = (1280, 400)
PAGES = {
    "landing": "?f=html",
    "collections": "collections?f=html",
    "collection": "collections/sample?f=html",
    "items": "collections/sample/items?f=html&limit=50",
    "api": "api?f=html",
    "item": "collections/town/items/house-1?f=html",
    "conformance": "conformance?f=html",
}
DROP = """
const input = document.createElement("input");
input.type = "file";
input.id = "dropped";
input.multiple = true;
input.addEventListener("change", () => {
  const data = new DataTransfer();
  for (const file of input.files) data.items.add(file);
  const event = new DragEvent("drop", { dataTransfer: data, bubbles: true, cancelable: true });
  document.getElementById("drop").dispatchEvent(event);
});
document.body.append(input);
"""


def left_out(why):
    print(f"left out: the page in a browser: {why}")
    print("0 passed, 0 failed")
    sys.exit(0)


try:
    from selenium import webdriver
    from selenium.webdriver.chrome.service import Service
    from selenium.webdriver.common.by import By
    from selenium.webdriver.common.keys import Keys
except ImportError:
    left_out("python3-selenium is not there")


class Browser:
    """Chromium, with a log of its console and of its requests."""

    def __init__(self):
        program, driver = shutil.which("chromium"), shutil.which("chromedriver")
        if program is None or driver is None:
            left_out("chromium or chromium-driver is not there")
        options = webdriver.ChromeOptions()
        options.binary_location = program
        for word in (
            "--headless=new",
            "--no-sandbox",
            "--disable-gpu",
            "--disable-dev-shm-usage",
            "--force-device-scale-factor=1",
        ):
            options.add_argument(word)
        options.set_capability("goog:loggingPrefs", {"browser": "ALL", "performance": "ALL"})
        self.driver = webdriver.Chrome(service=Service(driver), options=options)
        self.driver.set_page_load_timeout(30)

    def resize(self, width, height=900):
        """Sets the size of the page itself."""
        self.driver.execute_cdp_cmd(
            "Emulation.setDeviceMetricsOverride",
            {"width": width, "height": height, "deviceScaleFactor": 1, "mobile": False},
        )

    def console(self):
        """What the console says."""
        return [line["message"] for line in self.driver.get_log("browser")]

    def urls(self):
        """The URLs of all requests since the last call."""
        import json

        found = []
        for line in self.driver.get_log("performance"):
            message = json.loads(line["message"])["message"]
            if message["method"] == "Network.requestWillBeSent":
                found.append(message["params"]["request"]["url"])
        return found


def large_stream(path, megabytes):
    """A valid stream of so many MB."""
    lines = (EXAMPLES / "sample.city.jsonl").read_bytes().split(b"\n", 1)
    with open(path, "wb") as file:
        file.write(lines[0] + b"\n")
        while file.tell() < megabytes * 1_000_000:
            file.write(lines[1])


class Checks:
    """Counts what passed."""

    def __init__(self):
        self.passed = self.failed = 0

    def __call__(self, name, is_right, told=""):
        self.passed, self.failed = self.passed + bool(is_right), self.failed + (not is_right)
        if not is_right:
            print(f"{name}: {told}")


def wait(browser, found, seconds=60):
    """What a call answers that is not empty, within some seconds."""
    end = time.monotonic() + seconds
    while time.monotonic() < end:
        value = found(browser.driver)
        if value:
            return value
        time.sleep(0.02)
    return None


def verdict(driver):
    return driver.find_element(By.ID, "verdict").text


def drop(browser, *paths):
    """Drops files on the page."""
    driver = browser.driver
    driver.execute_script(DROP)
    driver.find_element(By.ID, "dropped").send_keys("\n".join(map(str, paths)))


def try_page(browser, url, folder, megabytes, check):
    """Drops a large file, an invalid one and a hostile one, and works by keyboard."""
    driver = browser.driver
    driver.get(url + "?f=html")
    large = folder / "large.city.jsonl"
    large_stream(large, megabytes)
    driver.execute_script(
        "window.seen = []; new MutationObserver(() => window.seen.push("
        "document.getElementById('sent').textContent)).observe("
        "document.getElementById('sent'), {childList: true});"
    )
    drop(browser, large)
    said = wait(browser, verdict)
    check("a valid file", said and said.startswith("Valid"), said)
    seen = driver.execute_script("return window.seen")
    check("progress", any(" of " in text or "sent" in text for text in seen), seen)
    driver.get(url + "?f=html")
    drop(browser, EXAMPLES / "delivery.city.jsonl")
    said = wait(browser, verdict)
    is_right = said and said.startswith("Invalid") and "5 invalid lines" in said
    check("an invalid file", is_right, said)
    report = driver.find_element(By.ID, "report").text
    wanted = ("vertex index out of range", "p2", "Fix:", "^")
    check("its reports", all(text in report for text in wanted), report)
    driver.get(url + "?f=html")
    hostile = folder / "hostile.city.jsonl"
    name = "<img src=x onerror=document.title='bad'><script>document.title='bad'</script>"
    text = (EXAMPLES / "broken.city.jsonl").read_text("utf-8").replace('"b2"', f'"{name}"')
    hostile.write_text(text, "utf-8")
    drop(browser, hostile)
    wait(browser, verdict)
    report = driver.find_element(By.ID, "report").text
    check("a hostile id is a text", name[:30] in report and driver.title != "bad", report)
    driver.get(url + "?f=html")
    driver.find_element(By.ID, "file").send_keys(str(EXAMPLES / "broken.city.jsonl"))
    driver.find_element(By.ID, "start").send_keys(Keys.ENTER)
    said = wait(browser, verdict)
    check("by keyboard", said and said.startswith("Invalid"), said)
    focused = driver.switch_to.active_element.get_attribute("id")
    check("the verdict has the focus", focused == "verdict", focused)


def try_many(browser, url, folder, check):
    """Drops a file with more invalid lines than are told, and then two files at once."""
    driver = browser.driver
    many = folder / "many.city.jsonl"
    header, *lines = (EXAMPLES / "town.city.jsonl").read_bytes().splitlines(keepends=True)
    many.write_bytes(header + b"{}\n" * 11_000 + b"[\n" * 3_000 + lines[0])
    driver.get(url + "?f=html")
    driver.execute_script(
        "const made = URL.createObjectURL; URL.createObjectURL = (blob) => {"
        "window.saved = blob; return made.call(URL, blob); };"
    )
    drop(browser, many)
    said = wait(browser, verdict)
    check("many invalid lines", said and "14,000 invalid lines" in said, said)
    table = driver.find_element(By.CSS_SELECTOR, "#report table").text
    check("all are counted", "11,000" in table and "3,000" in table, table)
    button = driver.find_element(By.CSS_SELECTOR, "#report a.button")
    check("the button has the number", "first 10,000 of 14,000 reports" in button.text, button.text)
    saved = driver.execute_async_script("window.saved.text().then(arguments[0])")
    check("so many are saved", saved.count("\n") == 10_000, saved.count("\n"))
    driver.get(url + "?f=html")
    drop(browser, EXAMPLES / "delivery.city.jsonl", EXAMPLES / "town.city.jsonl")
    said = wait(browser, verdict)
    check("two files", said and said.startswith("2 files") and "1 valid, 1 invalid" in said, said)
    found = [each.text for each in driver.find_elements(By.CSS_SELECTOR, "#report .verdict")]
    is_right = (
        len(found) == 2
        and found[0].startswith("Invalid\ndelivery.city.jsonl")
        and (found[1].startswith("Valid\ntown.city.jsonl"))
    )
    check("a verdict on each", is_right, found)
    buttons = [each.text for each in driver.find_elements(By.CSS_SELECTOR, "#report a.button")]
    check("all reports of one", buttons == ["Download 5 reports"], buttons)


def look(browser, url, pictures, check):
    """Opens each page at each width: nothing is wider than the page."""
    for name, path in PAGES.items():
        for width in WIDTHS:
            browser.resize(width)
            browser.driver.get(url + path)
            wide = browser.driver.execute_script("return document.documentElement.scrollWidth")
            check(f"{name} at {width} pixels", wide <= width, f"{wide} pixels wide")
            check(f"{name} has a title", browser.driver.find_elements(By.TAG_NAME, "h1"))
            if pictures is not None:
                height = browser.driver.execute_script(
                    "return document.documentElement.scrollHeight"
                )
                browser.resize(width, min(max(height, 300), 4_000))
                browser.driver.save_screenshot(str(pictures / f"{name}-{width}.png"))


def serve(python, folder):
    """Starts a server over two examples, and returns it with its URL."""
    settings = {**os.environ, "PYTHONPATH": str(ROOT / "python")}
    words = [python, "-m", "cityseq"]
    streams = [str(EXAMPLES / f"{name}.city.jsonl") for name in ("sample", "town")]
    index = str(folder / "all.gpkg")
    subprocess.run(
        [*words, "index", "--quiet", "--output", index, *streams], env=settings, check=True
    )
    server = subprocess.Popen(
        [*words, "serve", "--port", "0", "--quiet", index], env=settings, stderr=subprocess.PIPE
    )
    return server, server.stderr.readline().decode().split(" ")[0]


def main():
    parser = argparse.ArgumentParser(description=__doc__.split("\n")[0])
    parser.add_argument("--pictures", type=pathlib.Path)
    parser.add_argument("--megabytes", type=int, default=50)
    parser.add_argument("python", nargs="?", default="/usr/bin/python3")
    given = parser.parse_args()
    check = Checks()
    with tempfile.TemporaryDirectory() as name:
        folder = pathlib.Path(name)
        server, url = serve(given.python, folder)
        browser = Browser()
        try:
            if given.pictures is not None:
                given.pictures.mkdir(parents=True, exist_ok=True)
            look(browser, url, given.pictures, check)
            browser.resize(400)
            try_page(browser, url, folder, given.megabytes, check)
            try_many(browser, url, folder, check)
            if given.pictures is not None:
                browser.driver.save_screenshot(str(given.pictures / "two-files.png"))
            if given.pictures is not None:
                browser.driver.get(url + "?f=html")
                drop(browser, EXAMPLES / "delivery.city.jsonl")
                wait(browser, verdict)
                for width in WIDTHS:
                    browser.resize(width, 1_600)
                    browser.driver.save_screenshot(str(given.pictures / f"verdict-{width}.png"))
            told = browser.console()
            check("nothing is said on the console", not told, told)
            far = [
                each
                for each in browser.urls()
                if not each.startswith((url, "blob:" + url, "data:", "chrome"))
            ]
            check("no request goes elsewhere", not far, far)
        finally:
            browser.driver.quit()
            server.terminate()
            server.wait(15)
    print(f"{check.passed} passed, {check.failed} failed")
    return int(check.failed > 0)


if __name__ == "__main__":
    sys.exit(main())
