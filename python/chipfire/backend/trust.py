"""Whose a file is: whether anybody but this user and root decides what lies at a path."""

from __future__ import annotations

import errno
import os
import stat
from collections.abc import Collection, Iterator
from typing import Any

from chipfire.utils import import_optional

#: The users and the groups of the system, if it has any.
_USERS: Any = import_optional("pwd")
_GROUPS: Any = import_optional("grp")

#: How many symbolic links a path may go through.
_MOST_LINKS = 40


def _user(number: int) -> str:
    """A user's name, or his number if he has none."""
    try:
        return str(_USERS.getpwuid(number).pw_name)
    except KeyError:
        return str(number)


def _group(number: int) -> str:
    """A group's name, or its number if it has none."""
    try:
        return str(_GROUPS.getgrgid(number).gr_name)
    except KeyError:
        return str(number)


def _is_private(number: int) -> bool:
    """Whether nobody but this user, or root, is in a group: it has his name, is his primary group, and has no other
    member."""
    try:
        group = _GROUPS.getgrgid(number)
        user = _USERS.getpwnam(group.gr_name)
    except KeyError:
        return False
    is_own = user.pw_uid in (0, os.geteuid()) and user.pw_gid == number
    if not is_own or {*group.gr_mem} - {user.pw_name}:
        return False
    # (the system may list only some users, so the name of the group was compared too)
    return all(it.pw_uid == user.pw_uid for it in _USERS.getpwall() if it.pw_gid == number)


def _doubt_of(path: str, state: os.stat_result, top: str) -> str | None:
    """Why somebody else may change one folder, symbolic link or file; outside `top` a folder may be sticky."""
    if state.st_uid not in (0, os.geteuid()):
        own = "root" if os.geteuid() == 0 else f"{_user(os.geteuid())} or root"
        return f"{path} belongs to {_user(state.st_uid)}, and not to {own}"
    if stat.S_ISLNK(state.st_mode):  # (its folder says who can put another in its place)
        return None
    is_inside = os.path.join(path, "").startswith(os.path.join(top, ""))
    if stat.S_ISDIR(state.st_mode) and state.st_mode & stat.S_ISVTX and not is_inside:
        return None
    if state.st_mode & stat.S_IWOTH:
        return f"{path} can be written by everybody"
    if state.st_mode & stat.S_IWGRP and not _is_private(state.st_gid):
        return f"{path} can be written by the group {_group(state.st_gid)}"
    return None


def _way(path: str) -> Iterator[tuple[str, os.stat_result]]:
    """Each folder and symbolic link on the way from the root directory to what lies at a path, and that; with states."""
    at = os.sep
    left = path.split(os.sep)[::-1]
    links = 0
    yield at, os.lstat(at)
    while left:
        name = left.pop()
        if name == os.pardir:  # (no link is left in what is before it, so this is the folder above)
            at = os.path.dirname(at)
        elif name not in ("", os.curdir):
            inner = os.path.join(at, name)
            state = os.lstat(inner)
            yield inner, state
            if stat.S_ISLNK(state.st_mode):
                target = os.readlink(inner)
                links = links + 1
                left += target.split(os.sep)[::-1]
                inner = os.sep if target.startswith(os.sep) else at
            at = inner
        if links > _MOST_LINKS:
            raise OSError(errno.ELOOP, os.strerror(errno.ELOOP), path)


def _all(top: str, names: Collection[str]) -> Iterator[tuple[str, os.stat_result]]:
    """All that lies in a folder, and below those of its folders that have these names, with its state."""
    for folder, inner, files in os.walk(top):
        for name in sorted([*inner, *files]):
            path = os.path.join(folder, name)
            state = os.lstat(path)
            if stat.S_ISLNK(state.st_mode) and (folder != top or name in names):
                raise OSError(errno.ELOOP, "a symbolic link", path)
            yield path, state
        if folder == top:
            inner[:] = [name for name in inner if name in names]


def _first_doubt(found: Iterator[tuple[str, os.stat_result]], top: str) -> str | None:
    """Why somebody else may change one of these files, the first that is in doubt; None if none is."""
    if _USERS is None:
        return "this system does not say who can write to a file"
    try:
        for path, state in found:
            if why := _doubt_of(path, state, top):
                return why
    except OSError as error:
        return f"{error.filename}: {error.strerror}"
    return None


def doubt(path: str, top: str | None = None) -> str | None:
    """Why somebody but this user and root may decide what lies at a whole path; None if nobody does.

    Nobody does if each folder from the root directory down, each symbolic link on the way, and what lies at the path
    belong to this user or root, and only these two can write to them. A group may write that is the user's own. A
    folder that others can write to may lie around `top`, a real path, if it is sticky as /tmp is: nobody else can
    rename or remove there what these two own. In `top` and below it others could add files, so none of its folders may
    be. If `top` is not said, it is the folder that the file lies in.

    The result holds until the path is used: who can write to nothing on the way changes nothing there.

    Lists of access (POSIX ACLs) are not read. If one lets others write, the file's group is shown as one that may
    write, which is in doubt if it is not the user's own."""
    if top is None:
        top = os.path.dirname(os.path.realpath(path))
    return _first_doubt(_way(path), top)


def doubt_below(top: str, names: Collection[str]) -> str | None:
    """As `doubt`, of all that lies in a folder, a real path, and below those of its folders that have these names,
    where no symbolic link may lie."""
    return _first_doubt(_all(top, names), top)
