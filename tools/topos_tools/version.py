"""The version of topos: the file that `packaging/install` writes, or that of the commit of a clone."""
import os
import subprocess

PACKAGE = os.path.dirname(os.path.realpath(__file__))
INSTALLED = os.path.join(os.path.dirname(PACKAGE), 'version')
OF_CLONE = os.path.join(PACKAGE, '..', '..', 'packaging', 'version')


def version() -> str:
    """Returns the version, or `unknown` for a copy that has neither."""
    try:
        if os.path.exists(INSTALLED):
            with open(INSTALLED, encoding='utf-8') as file:
                return file.read().strip()
        return subprocess.run([OF_CLONE], capture_output=True, text=True, check=True).stdout.strip()
    except (OSError, ValueError, subprocess.CalledProcessError):
        return 'unknown'
