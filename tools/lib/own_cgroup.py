"""A cgroup for a systemd that is started for a trial, so that it has no way to others. For the tools beside it."""
import contextlib
import os
import pathlib


def hierarchies():
    """Where systemd keeps its services: the mount of version 2, and the one of version 1 that bears its name; each with the place of this process."""
    places = dict(line.split(':', 2)[1:] for line in pathlib.Path('/proc/self/cgroup').read_text().splitlines())
    for line in pathlib.Path('/proc/mounts').read_text().splitlines():
        _, folder, kind, options, *_ = line.split()
        if kind == 'cgroup2':
            yield folder + places[''].rstrip('/')
        elif kind == 'cgroup' and 'name=systemd' in options:
            yield folder + places['name=systemd'].rstrip('/')


def own_cgroups(name='one'):
    """A new cgroup in each hierarchy, where a trial may have several; none where the machine has no cgroups of version 2."""
    folders = [pathlib.Path(place) / f'goo-trial-{os.getpid()}-{name}' for place in hierarchies()]
    for folder in folders:
        folder.mkdir()
    return folders


def entering(folders):
    """The words of a shell that enters them."""
    return ' && '.join(f'echo $$ > {folder}/cgroup.procs' for folder in folders)


def remove_cgroups(folders):
    """What no process is in any more."""
    for at in (at for folder in folders for at, _, _ in os.walk(folder, topdown=False)):
        with contextlib.suppress(OSError):
            os.rmdir(at)
