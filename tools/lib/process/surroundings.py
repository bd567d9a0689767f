"""The environment of a tool, in which no library finds a file of the working folder or settings. OpenSSL and fontconfig obey such files,
and settings of OpenSSL, dask and libgomp can name code to run."""

from __future__ import annotations

import os
import pwd
import sys

# Each of these names a file or a folder of a library.
PATHS = (
    "FONTCONFIG_FILE", "FONTCONFIG_PATH", "FONTCONFIG_SYSROOT", "HOME", "MPLCONFIGDIR", "OPENSSL_CONF", "OPENSSL_ENGINES",
    "OPENSSL_MODULES", "PYTHONTZPATH", "SSL_CERT_DIR", "SSL_CERT_FILE", "XDG_CACHE_HOME", "XDG_CONFIG_HOME", "XDG_DATA_DIRS",
    "XDG_DATA_HOME",
)  # fmt: skip
LISTS = "FONTCONFIG_PATH", "PYTHONTZPATH", "SSL_CERT_DIR", "XDG_DATA_DIRS"  # those of them that name several
# The beginnings of the names of settings, of which some run code, and others stop an import or print. Numbers of threads stay.
SETTINGS = (
    "ACC_", "DASK_", "FLEXIBLAS", "GOMP_", "KMP_", "MKL_", "NPY_", "NUMPY_", "OMP_", "OPENBLAS_", "PILLOW_", "SCIPY_", "TORNADO_", "TQDM_",
    "_PYTHON_",
)  # fmt: skip
THREADS = "_NUM_THREADS"
PYTHON = "PYTHONEXECUTABLE"  # an isolated Python obeys it too, and takes it for its own name
DATE = "SOURCE_DATE_EPOCH"  # matplotlib fails if it isn't a number, also for a picture without a date
NO_HOME = "/nonexistent"  # as Debian has it for users without a home


def isolate_environment() -> None:
    """Removes relative paths, settings and the date of files from the environment, and the search for translations, which would follow any
    path. Tools start this Python again by its own name, which it doesn't know without a PATH, or if the environment has another one."""
    if os.environ.pop(PYTHON, None) is not None or not sys.executable:
        sys.executable = os.path.realpath("/proc/self/exe")
    for name in PATHS:
        named = os.environ.get(name) or "/"
        if not all(map(os.path.isabs, named.split(os.pathsep) if name in LISTS else [named])):
            del os.environ[name]
    for name in [name for name in os.environ if name.startswith(SETTINGS) and not name.endswith(THREADS)]:
        del os.environ[name]
    os.environ.pop(DATE, None)
    os.environ["LANGUAGE"] = "C"  # before the locale, whose name gettext would take for a folder
    os.environ.setdefault("HOME", find_home())


def find_home() -> str:
    """The user's home by the system's list of users, which may lack the user."""
    try:
        return pwd.getpwuid(os.getuid()).pw_dir
    except KeyError:
        return NO_HOME
