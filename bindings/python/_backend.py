"""The backend by which pip, build and others make a wheel or a source distribution of this package
(PEP 517). It needs neither network nor other packages.

A wheel contains the shared object. The backend takes the first of these that is given:
- the file that the setting `library` names, as in `pip install --config-settings library=PATH
  bindings/python`;
- the file that the variable BOXGLUE_LIBRARY names;
- libboxglue.so in the package's folder.
The build fails if none is given, or if the file is not a library of this version. The script
bindings/wheel makes the wheel."""
import gzip
import importlib.machinery
import importlib.util
import io
import os
import sys
import tarfile

HERE = os.path.dirname(os.path.abspath(__file__))
# The source distribution has both beside this file, where its tests look for the examples.
WHEEL = f"{HERE}/wheel" if os.path.exists(f"{HERE}/wheel") else f"{HERE}/../wheel"
EXAMPLES = (
    f"{HERE}/tests/examples"
    if os.path.exists(f"{HERE}/tests/examples")
    else f"{HERE}/../../examples"
)
# 1 January 1980, as in the wheel.
DAY = 315_532_800


def _wheel_script():
    """The script bindings/wheel as a module."""
    loader = importlib.machinery.SourceFileLoader("boxglue_wheel", WHEEL)
    module = importlib.util.module_from_spec(
        importlib.util.spec_from_loader("boxglue_wheel", loader)
    )
    loader.exec_module(module)
    return module


def build_wheel(wheel_directory, config_settings=None, metadata_directory=None):
    """Writes the wheel, and returns its name."""
    script, own = _wheel_script(), f"{HERE}/boxglue/libboxglue.so"
    setting, variable = (config_settings or {}).get("library"), os.environ.get("BOXGLUE_LIBRARY")
    named = setting or variable
    begin = "boxglue: BOXGLUE_LIBRARY" if variable and not setting else "boxglue"
    if not named and not os.path.exists(own):
        ways = "name one, such as lib/libboxglue.so of a release or of ./install --library, in BOXGLUE_LIBRARY or with --config-settings library=PATH"
        sys.exit(f"boxglue: the wheel needs libboxglue.so: {ways}")
    if named and not os.path.isabs(named) and not os.path.exists(named):
        sys.exit(
            f"{begin}: there is no {os.path.abspath(named)}: name the library by its whole path"
        )
    try:
        return script.make_wheel(named or own, wheel_directory)
    except (script.Unfit, OSError) as error:
        sys.exit(f"{begin}: {error}")


def _sources():
    """The files of the source distribution, by their names in it."""
    names = ["README.md", "_backend.py", "pyproject.toml"]
    for folder in ("boxglue", "tests"):
        names += [
            f"{folder}/{it}"
            for it in sorted(os.listdir(f"{HERE}/{folder}"))
            if it.endswith((".py", ".txt")) or it == "py.typed"
        ]
    examples = {
        f"tests/examples/{it}": f"{EXAMPLES}/{it}"
        for it in sorted(os.listdir(EXAMPLES))
        if it.endswith((".box", ".tfm"))
    }
    return {**{it: f"{HERE}/{it}" for it in names}, **examples, "wheel": WHEEL}


def build_sdist(sdist_directory, config_settings=None):
    """Writes the source distribution, and returns its name. The same sources give the same bytes.
    The setting `version` names another version, as of a release without proofs."""
    script = _wheel_script()
    version = (config_settings or {}).get("version") or script.package_version()
    name = f"boxglue-{version}"
    files = {
        "PKG-INFO": script.metadata(version).encode(),
        **{it: script.read(path) for it, path in _sources().items()},
    }
    with (
        open(f"{sdist_directory}/{name}.tar.gz", "wb") as out,
        gzip.GzipFile("", "wb", 9, out, DAY) as packed,
        tarfile.open(fileobj=packed, mode="w", format=tarfile.PAX_FORMAT) as it,
    ):
        for path, data in files.items():
            entry = tarfile.TarInfo(f"{name}/{path}")
            entry.size, entry.mtime, entry.mode = (
                len(data),
                DAY,
                0o755 if path == "wheel" else 0o644,
            )
            it.addfile(entry, io.BytesIO(data))
    return f"{name}.tar.gz"
