#!/usr/bin/env python3
"""Crawls a made-up graph of pages by coroutines, and knows when the last page is read.

    crawler.py [--pages N] [--log FOLDER]

Page N links to pages 2N and 2N + 1, and back to page N // 2. Three crawlers share the pages, each those whose number
leaves its rest by three. They send one another what they find, and await each page. With a folder, what they did is
written there, and judged.
"""
import argparse
import asyncio

import chipfire

CRAWLERS = 3


async def links_of(page, pages):
    """What a page links to, after a while."""
    await asyncio.sleep(page % 4 / 10_000)
    return [it for it in (page // 2, 2 * page, 2 * page + 1) if 0 < it <= pages]


async def crawl(me, pages, seen):
    """Reads the pages that come to a crawler, each once."""
    async for page in me:
        if page not in seen:
            seen.add(page)
            for link in await links_of(page, pages):
                me.send(link % CRAWLERS, link)


async def crawled(pages, log):
    """Returns the pages that can be reached from page 1, and the detector."""
    detector = chipfire.Detector(range(CRAWLERS), "asyncio", log=log)
    seen = [set() for _ in range(CRAWLERS)]
    loops = [asyncio.ensure_future(crawl(detector[it], pages, seen[it])) for it in range(CRAWLERS)]
    detector.begin(1 % CRAWLERS, 1)
    await detector
    await asyncio.gather(*loops)
    return sorted(set().union(*seen)), detector


def main():
    parser = argparse.ArgumentParser(description=__doc__, formatter_class=argparse.RawDescriptionHelpFormatter)
    parser.add_argument("--pages", type=int, default=100, help="how many pages there are (100 by default)")
    parser.add_argument("--log", help="a new folder for the logs")
    asked = parser.parse_args()
    pages, detector = asyncio.run(crawled(asked.pages, asked.log))
    print(f"{len(pages)} pages")
    if asked.log:
        print(detector.check())


if __name__ == "__main__":
    main()
