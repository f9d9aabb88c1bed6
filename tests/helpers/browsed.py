#!/usr/bin/env python3
"""Plays files in a browser, from their first sample to their last.

    browsed.py BROWSER WHOLE CUT ..

Each file has as many samples as ffmpeg decodes, and plays to its end, which is where its samples or its positions say (a
cut of a time within keeps the positions of what was recorded); of no cut the browser says more than of WHOLE, the
encoder's file. Prints a line for each file; the status is 0 if all is so.
"""
import functools
import http.server
import os
import sys
import threading

sys.path.insert(0, os.path.dirname(os.path.abspath(__file__)))
from browsing import Browser
from sounding import position, samples

PLAYS = """(async () => {
    const blob = await (await fetch('/%s')).blob();
    const sound = new Audio(URL.createObjectURL(blob));
    sound.playbackRate = 4;
    await new Promise((ended, failed) => {
        sound.onended = ended;
        sound.onerror = () => failed(new Error(sound.error.message));
        sound.play().catch(failed);
    });
    const heard = await new OfflineAudioContext(1, 1, 48000).decodeAudioData(await blob.arrayBuffer());
    return [sound.duration, heard.length];
})()"""


class Quiet(http.server.SimpleHTTPRequestHandler):
    def log_message(self, *_):
        pass

    def do_GET(self):
        if self.path == "/page":
            self.send_response(200)
            self.send_header("Content-Type", "text/html")
            self.end_headers()
            self.wfile.write(b"<!doctype html><link rel=icon href=data:,><title>sounds</title>")
        else:
            super().do_GET()


def main():
    browser, *files = sys.argv[1:]
    folder = os.path.dirname(os.path.abspath(files[0]))
    server = http.server.ThreadingHTTPServer(("127.0.0.1", 0), functools.partial(Quiet, directory=folder))
    threading.Thread(target=server.serve_forever, daemon=True).start()
    told = {}
    with Browser(browser) as page:
        page.open(f"http://127.0.0.1:{server.server_port}/page")
        for path in files:
            del page.messages[:]
            wanted = len(samples(path))
            duration, heard = page.value(PLAYS % os.path.basename(path))
            told[path] = set(page.messages)
            print(f"{os.path.basename(path)}: {duration:.3f} s, {heard} samples, of {wanted}; {len(told[path])} messages", flush=True)
            assert abs(heard - wanted) <= 1, path
            assert any(abs(duration - end / 48000) < 0.1 for end in (wanted, position(path)[0])), path
            assert told[path] <= told[files[0]], (path, told[path])
    server.shutdown()


if __name__ == "__main__":
    main()
