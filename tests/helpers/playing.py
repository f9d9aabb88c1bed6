#!/usr/bin/env python3
"""The player of a station, in a browser.

    playing.py PROGRAM BROWSER FOLDER [PICTURES]

A station records two sources one after the other, over HTTP; and then another one records one into a folder, a file each
eight seconds. Prints a line for each check, 'ok ..' or 'FAILED ..'; the status is 0 if all of them were made.
"""
import calendar
import re
import subprocess
import sys
import time
import urllib.request
from pathlib import Path

from browsing import Browser
from serving import free_port

program, browser, folder = sys.argv[1:4]
folder = Path(folder)
pictures = Path(sys.argv[4]) if len(sys.argv) > 4 else None


def check(name, good):
    print(("ok " if good else "FAILED: ") + name, flush=True)


def encoder(address, serial, seconds):
    """Noise, sent as it is played."""
    source = f"anoisesrc=duration={seconds}:color=pink:amplitude=0.3:seed={serial}"
    words = ["ffmpeg", "-nostdin", "-loglevel", "error", "-re", "-f", "lavfi", "-i", source, "-c:a", "libvorbis", "-q:a", "5"]
    words += ["-serial_offset", str(serial), "-f", "ogg", "-content_type", "application/ogg", f"icecast://source:secret@{address}/x"]
    return subprocess.Popen(words)


def wait(what, seconds=20):
    end = time.monotonic() + seconds
    while time.monotonic() < end:
        try:
            if what():
                return True
        except OSError:
            pass
        time.sleep(0.1)
    return False


def fetch(address, path):
    with urllib.request.urlopen(f"http://{address}{path}", timeout=10) as it:
        return it.headers, it.read()


address = f"127.0.0.1:{free_port()}"
(folder / "password").write_text("secret\n")
words = [program, "station", str(folder / "player.ogg"), address, "--password-file", str(folder / "password")]
with open(folder / "station.err", "wb") as err:
    station = subprocess.Popen(words, stdin=subprocess.DEVNULL, stderr=err)
begun = [station]
try:
    check("the station listens", wait(lambda: fetch(address, "/status")))
    headers, page = fetch(address, "/player")
    check(f"the page has {len(page)} bytes, under 16 kB", len(page) < 16_000)
    policy = headers["Content-Security-Policy"]
    check("its policy allows nothing from elsewhere", policy.startswith("default-src 'none';") and "*" not in policy and "http" not in policy)
    check("its type isn't guessed", headers["X-Content-Type-Options"] == "nosniff")
    check("it names no other place", b"//" not in page.replace(b"\n//", b"").replace(b" //", b""))
    first = encoder(address, 1, 20)
    begun.append(first)
    check("the first source is recorded", wait(lambda: b"link 0 " in fetch(address, "/")[1]))
    with Browser(browser) as page:
        page.open(f"http://{address}/player")
        check("the page has a title", bool(page.value("document.title")))
        check("it says that something is recorded", page.until("document.body.innerText.includes('On the air since')"))
        check("each control has a name", page.value(
            "[...document.querySelectorAll('button, a, audio')].every(it => it.getAttribute('aria-label') || it.textContent.trim())"))
        check("the list has the link", page.until("document.querySelectorAll('#list > li').length === 1"))
        page.value("document.getElementById('live').play()")
        check("what is recorded plays", page.until("document.getElementById('live').currentTime > 1"))
        first.wait(40)
        before = page.value("document.getElementById('live').currentTime")
        second = encoder(address, 2, 25)
        begun.append(second)
        check("the list grows", page.until("document.querySelectorAll('#list > li').length === 2", 25))
        check("its newest link stands first", page.value("document.querySelector('#list > li').innerText.startsWith('Link 1')"))
        check("and is still recorded", page.until("document.querySelector('#list > li').innerText.includes('still being recorded')"))
        check("the sound goes on over the change of source", page.until(f"document.getElementById('live').currentTime > {before} + 3", 30))
        page.value("document.querySelector('#list > li:nth-child(2) button').click()")
        link = "document.querySelector('#list > li:nth-child(2) audio')"
        check("a link plays", page.until(f"{link} && {link}.currentTime > 1"))
        check("one sound at a time", page.until("document.getElementById('live').paused"))
        check("its length is known", page.until(f"{link}.duration > 15 && {link}.duration < 25"))
        page.value(f"{link}.currentTime = 12")
        check("it can be sought", page.until(f"{link}.currentTime > 12.5 && !{link}.seeking"))
        check("it can be fetched", page.value("document.querySelector('#list > li:nth-child(2) a[download]').getAttribute('href') === 'link/0'"))
        check("a narrow screen needs no scrolling aside", page.value(
            "(document.documentElement.style.width = '320px', document.documentElement.scrollWidth <= Math.max(320, innerWidth))"))
        page.value("document.documentElement.style.width = ''")
        if pictures:
            page.picture(pictures / "player.png")
            page.picture(pictures / "player-narrow.png", 360, 800)
        check(f"the console says nothing: {page.messages}", not page.messages)
    with Browser(browser, "--blink-settings=scriptEnabled=false") as page:
        page.call("Page.navigate", url=f"http://{address}/player")
        time.sleep(2)
        tree = page.call("DOM.getDocument", depth=-1)
        text = str(tree)
        check("without scripts there are a player and links", all(it in text for it in ("'live'", "'all'", "'status'", "AUDIO")))
finally:
    for it in begun:
        it.terminate()
    for it in begun:
        it.wait(10)


def utc(moment):
    return time.strftime("%Y-%m-%dT%H:%M:%SZ", time.gmtime(moment))


# ---- a station over a folder: what was on the air at any time
address = f"127.0.0.1:{free_port()}"
archive = str(folder / "past")
words = [program, "station", archive + "/", address, "--every", "8s", "--password-file", str(folder / "password")]
with open(folder / "station.err", "wb") as err:
    station = subprocess.Popen(words, stdin=subprocess.DEVNULL, stderr=err)
begun = [station]
try:
    check("the station listens", wait(lambda: fetch(address, "/status")))
    # The first file is to have some sound: a browser plays no chain that begins with headers alone.
    while time.time() % 8 > 1:
        time.sleep(0.1)
    source = encoder(address, 3, 60)
    begun.append(source)
    check("files are begun", wait(lambda: fetch(address, "/files")[1].count(b"file ") > 2, 40))
    listed = [line.split() for line in fetch(address, "/files")[1].decode().splitlines() if line.startswith("file ")]
    # Two seconds after the second file was begun.
    start = calendar.timegm(time.strptime(listed[1][2][:19], "%Y-%m-%dT%H:%M:%S")) + 2
    with Browser(browser) as page:
        page.open(f"http://{address}/player")
        check("there is a day to choose", page.until("document.querySelectorAll('#days button').length >= 1"))
        check("and an hour", page.until("document.querySelectorAll('#hours button').length >= 1"))
        check("each control has a name", page.value(
            "[...document.querySelectorAll('button, a, audio, input')].every(it => it.getAttribute('aria-label') || it.textContent.trim() || it.labels?.length)"))
        page.value(f"byId('then').elements.at.value = fieldOf({start}000)")
        page.value("byId('then').requestSubmit()")
        check("it plays from a time", page.until("live.currentTime > 1 && live.src.includes('/from/')"))
        check("and says so", page.value("byId('back').innerText.includes('From ')"))
        check("it goes over files and into what is live", page.until("live.currentTime - origin > 20", 40))
        shown = page.value("playsNow()") / 1000
        check(f"the time that plays is that of the sound: {shown - start:.1f}", abs(shown - start - 20) < 6)
        page.value("document.querySelector('#set-since').click()")
        check("a mark is what plays", page.value(f"Math.abs(new Date(byId('since').value).getTime() / 1000 - {shown}) < 10"))
        since, until = start, start + 6
        page.value(f"byId('since').value = fieldOf({since}000), byId('until').value = fieldOf({until}000), showCut()")
        check("what is between two marks can be fetched", page.value("!byId('cut').hidden"))
        path = re.sub(r"^http://[^/]*", "", page.value("byId('cut').href"))
        got = fetch(address, path)[1]
        cut = subprocess.run([program, "cut", archive, "--since", utc(since), "--until", utc(until)], capture_output=True, timeout=20)
        check(f"it is the cut of {len(cut.stdout)} bytes", cut.returncode == 0 and got == cut.stdout and len(got) > 20000)
        page.value("document.querySelector('#hours button').click()")
        check("an hour plays from its beginning", page.until("live.currentTime > 1 && origin !== null"))
        page.value("byId('to-live').click()")
        check("back to live", page.until("live.currentTime > 1 && live.src.endsWith('/live') && byId('back').hidden"))
        check("a narrow screen needs no scrolling aside", page.value(
            "(document.documentElement.style.width = '320px', document.documentElement.scrollWidth <= Math.max(320, innerWidth))"))
        page.value("document.documentElement.style.width = ''")
        if pictures:
            page.picture(pictures / "past.png")
            page.picture(pictures / "past-narrow.png", 360, 800)
        check(f"the console says nothing: {page.messages}", not page.messages)
    with Browser(browser, "--blink-settings=scriptEnabled=false") as page:
        page.call("Page.navigate", url=f"http://{address}/player")
        time.sleep(2)
        text = str(page.call("DOM.getDocument", depth=-1))
        check("without scripts there is a form", all(it in text for it in ("FORM", "from/", "datetime-local")))
    asked = "/from/?at=" + time.strftime("%Y-%m-%dT%H%%3A%M%%3A%S", time.localtime(start))
    with urllib.request.urlopen(f"http://{address}{asked}", timeout=10) as it:
        check("what the form asks for is heard", it.read(4) == b"OggS")
finally:
    for it in begun:
        it.terminate()
    for it in begun:
        it.wait(10)
