#!/usr/bin/env python3
"""A browser for the cases of the page: commands as lines of JSON on standard input, an answer to
each on standard output.

It stands in a process of its own, since selenium may be another Python's than that of the cases. A
command is a list of a name and its arguments.
"""
import json
import shutil
import sys

from selenium import webdriver
from selenium.common.exceptions import WebDriverException
from selenium.webdriver.common.action_chains import ActionChains
from selenium.webdriver.common.by import By
from selenium.webdriver.common.keys import Keys

WORDS = (
    "--headless=new",
    "--no-sandbox",
    "--disable-gpu",
    "--disable-dev-shm-usage",
    "--window-size=1280,800",
)


def opened():
    options = webdriver.ChromeOptions()
    for it in WORDS:
        options.add_argument(it)
    options.binary_location = shutil.which("chromium")
    options.set_capability("goog:loggingPrefs", {"browser": "ALL"})
    for last in (False, False, True):  # (a busy machine's browser may not be there in time)
        try:
            driver = webdriver.Chrome(
                service=webdriver.ChromeService(shutil.which("chromedriver"))
                if hasattr(webdriver, "ChromeService")
                else service(),
                options=options,
            )
            break
        except WebDriverException:
            if last:
                raise
    driver.set_page_load_timeout(600)
    driver.set_script_timeout(600)
    return driver


def service():
    from selenium.webdriver.chrome.service import Service

    return Service(shutil.which("chromedriver"))


def done(driver, name, *words):
    if name == "open":
        driver.get(words[0])
    elif name == "script":
        return driver.execute_script(*words)
    elif name == "click":
        driver.find_element(By.CSS_SELECTOR, words[0]).click()
    elif name == "type":
        element = driver.find_element(By.CSS_SELECTOR, words[0])
        element.clear()
        element.send_keys(words[1])
    elif name == "keys":
        chain = ActionChains(driver)
        for it in words:
            chain.send_keys(getattr(Keys, it, it))
        chain.perform()
    elif name == "emulate":
        width, height, theme = words
        driver.execute_cdp_cmd(
            "Emulation.setDeviceMetricsOverride",
            {"width": width, "height": height, "deviceScaleFactor": 1, "mobile": False},
        )
        driver.execute_cdp_cmd(
            "Emulation.setEmulatedMedia",
            {"features": [{"name": "prefers-color-scheme", "value": theme}]},
        )
    elif name == "picture":
        driver.save_screenshot(words[0])
    elif name == "log":
        return [it["message"] for it in driver.get_log("browser")]
    else:
        raise ValueError(name)
    return None


def main():
    driver = opened()
    try:
        print(json.dumps({"well": None}), flush=True)
        for line in sys.stdin:
            try:
                answer = {"well": done(driver, *json.loads(line))}
            except Exception as error:
                answer = {"error": f"{type(error).__name__}: {str(error).splitlines()[0]}"}
            print(json.dumps(answer), flush=True)
    finally:
        driver.quit()


if __name__ == "__main__":
    main()
