"""Chromium, killed again and again while somebody types at a page: nothing that was shown is lost, and nothing else is there."""
import concurrent.futures
import os
import random
import signal
import time

import page_browsers
import paws
from page_browsers import check

AT_ONCE = 4  # browsers that are killed at the same time
LINES = "document.documentElement.dataset.lines"
SHOWN = """
addEventListener("DOMContentLoaded", () => new MutationObserver(() => tellShown(String(turns.length - 1)))
  .observe(document.getElementById("story"), { childList: true }));
"""


def window(browser, address):
    """A window that tells of each answer when it is shown."""
    found = browser.window(script=SHOWN)
    found.call("Runtime.addBinding", name="tellShown")
    found.go(address)
    return found


def shown_in(messages):
    """The number of the last line whose answer the messages say was shown."""
    return [int(message["params"]["payload"]) for message in messages if message.get("method") == "Runtime.bindingCalled"]


def types_until_killed(browser, page, lines, done):
    """Types a line, and then some without waiting for their answers, and kills the browser. Gives how many were shown and typed."""
    page.take(lines[done], done + 1)
    typed = done + 1 + random.randint(1, 12)
    for line in lines[done + 1:typed]:
        page.window.enter(line)
        time.sleep(random.choice((0, 0, 0.01, 0.05)))
    time.sleep(random.choice((0, 0.005, 0.02, 0.1)))
    os.killpg(browser.process.pid, signal.SIGKILL)
    try:
        while True:
            browser.events.append(browser.read())
    except page_browsers.Wrong:
        return max([done + 1, *shown_in(browser.events)]), typed


def killed(room, opened, lines, image, times):
    """Kills a browser again and again while lines are typed, each time at another moment; gives how many lines were taken. The page
    is opened in each by a function of the browser and of whether it is the first."""
    least = most = 0
    for number in range(times + 1):
        browser = page_browsers.Chromium(room)
        try:
            page = opened(browser, number == 0)
            now = int(page.window.value(LINES))
            check(least <= now <= most, "kill %d: the page stands behind line %d; line %d was shown, line %d typed"
                  % (number, now, least, most))
            if number:
                _, text, _ = paws.run([paws.program(), "walk", image, "7"], lines[:now])
                check(page.window.value("turns.map((turn) => turn.text).join('')") == text, "kill %d: other texts are shown" % number)
            if number < times:
                browser.events.clear()
                least, most = types_until_killed(browser, page, lines, now)
        finally:
            browser.end()
    return now


def kill(room, opens, lines, image, times):
    """Kills as often as is said, some at the same time, each of which has a way of its own to open the page (opens gives it)."""
    with concurrent.futures.ThreadPoolExecutor(AT_ONCE) as pool:
        made = [pool.submit(killed, os.path.join(room, "killed%d" % number), opens(), lines, image, times // AT_ONCE)
                for number in range(AT_ONCE)]
        check(sum(each.result() for each in made) >= times, "hardly a line was taken")
