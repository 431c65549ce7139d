"""The resources that are in use or in memory, each by its name."""
from __future__ import annotations

import functools
import os
import shutil
import threading
import time
from collections import OrderedDict
from dataclasses import dataclass
from typing import Callable

from .cache import Cache
from .errors import Gone
from .keeping import Keeper
from .library import default_path
from .names import url_of
from .process import with_a_log
from .resource import Hooks, Resource
from .store import Folder

GIGABYTE = 1 << 30
MOST_RESOURCES = 4096
MOST_PROCESSES = 32
HEAD_WEIGHT = 32768


@dataclass(slots=True)
class Options:
    """How caches are made, and what they may hold.

    `library` is the path of the shared library, `program` that of the program; where neither is given, the library is taken if it is
    found, and else the program. `store` is a folder that keeps what was downloaded. `max_body` bounds a stored body, `max_memory` what
    is held in memory at once, and `max_store` the folder, all in bytes. The program stores no body above 16 MiB.
    """

    store: str | os.PathLike[str] | None = None
    library: str | os.PathLike[str] | None = None
    program: str | os.PathLike[str] | None = None
    max_body: int = GIGABYTE // 4
    max_memory: int = GIGABYTE // 4
    max_store: int = 4 * GIGABYTE
    clock: Callable[[], float] = time.time

    def find(self) -> None:
        """Settles which way caches are made. Raises OSError where neither is here."""
        if self.library is None and self.program is None:
            try:
                self.library = default_path()
            except OSError:
                self.program = os.environ.get("VOSDRIENG_PROGRAM") or shutil.which("vosdrieng")
        if self.library is None and self.program is None:
            raise OSError("neither libvosdrieng.so nor the program vosdrieng is here: give the path of one")

    def make(self, image: bytes | None) -> Cache:
        if self.library is not None:
            total = 2 * self.max_body + 4 * HEAD_WEIGHT
            return Cache.library(self.library, max_body=self.max_body, max_total=total, image=image)
        program = self.program or "vosdrieng"
        return with_a_log(program, image) if self.store is not None else Cache.process(program, image=image)


class Pool:
    """Hands out resources. What nobody uses stays in memory as long as there is room, and the longest unused go first.

    `changed` is called, under the lock of the resource, when something changed for those who wait.
    """

    def __init__(self, options: Options, changed: Callable[[Resource], None]) -> None:
        options.find()
        self.options, self.changed, self.lock = options, changed, threading.Lock()
        self.folder = Folder(options.store, options.max_store) if options.store is not None else None
        self.most = MOST_RESOURCES if options.library is not None else MOST_PROCESSES
        self.resources: OrderedDict[str, Resource] = OrderedDict()
        self.weight = 0

    def take(self, name: str) -> Resource:
        """The resource of this name, which stays until it is given back."""
        with self.lock:
            resource = self.resources.get(name)
            if resource is None:
                resource = self.resources[name] = self._made(name)
            self.resources.move_to_end(name)
            resource.users += 1
        return resource

    def _made(self, name: str) -> Resource:
        hooks = Hooks(self.options.clock, time.monotonic)
        resource = Resource(name, self.options.make, Keeper(self.folder, name), hooks)
        hooks.changed = functools.partial(self.changed, resource)
        return resource

    def give_back(self, resource: Resource) -> None:
        with self.lock:
            resource.users -= 1
            if self.resources.get(resource.name) is resource:
                weight = resource.keeper.size + len(resource.known[1]) + HEAD_WEIGHT
                self.weight += weight - resource.weight
                resource.weight = weight
                gone = self._past_room()
            else:
                gone = [] if resource.users else [resource]
        for it in gone:
            it.close()

    def doom_others(self, name: str) -> None:
        """What is stored of the same URL for others who ask isn't to be used any more (RFC 9111 section 4.4)."""
        with self.lock:
            others = [it for it in self.resources if it != name and url_of(it) == url_of(name)]
        for other in others:
            self._doom(self.take(other))
        if self.folder is not None:
            self.folder.remove_others(name)

    def _doom(self, resource: Resource) -> None:
        try:
            with resource.lock:
                resource.begin()
                resource.doom()
        except (Gone, MemoryError):
            self.drop(resource)
        finally:
            self.give_back(resource)

    def drop(self, resource: Resource) -> None:
        """Its cache has ended: whoever takes the name next gets another resource."""
        with self.lock:
            if self.resources.get(resource.name) is resource:
                del self.resources[resource.name]
                self.weight -= resource.weight

    def _past_room(self) -> list[Resource]:
        """Those that have to go, longest unused first."""
        gone: list[Resource] = []
        while self.weight > self.options.max_memory or len(self.resources) > self.most:
            resource = next((it for it in self.resources.values() if not it.users), None)
            if resource is None:
                break
            del self.resources[resource.name]
            self.weight -= resource.weight
            gone.append(resource)
        return gone

    def close(self) -> None:
        """Lets all go: what is in use once it is given back."""
        with self.lock:
            gone = [it for it in self.resources.values() if not it.users]
            self.resources.clear()
            self.weight = 0
        for resource in gone:
            resource.close()
