"""Says what is wrong with .venv: .venv/bin/python -I tools/environment.py [PREFIX].

If something is, it prints one line: `make WHY` if .venv has to be made anew, or `install WHY` if it is enough to
install crnplan in it again. With PREFIX, .venv must be made from a Python with that prefix, such as /usr. tools/setup
runs it.
"""
import importlib.metadata
import importlib.util
import os
import re
import sys
import sysconfig

TOP = os.path.dirname(os.path.dirname(os.path.abspath(__file__)))
REQUIREMENT = re.compile(r"([\w.-]+)>=([\d.]+)")
VERSION = re.compile(r'^__version__ = "(.*)"', re.MULTILINE)
# The folder of an environment, in its script `activate` and in the scripts of its packages.
HOME = re.compile(r"^VIRTUAL_ENV=[\"']?(/.*?)[\"']?$|(/.*?)/bin/python", re.MULTILINE)


def requirements(texts):
    """Returns the least version of each library that some requirements name."""
    return dict(REQUIREMENT.match(re.sub(r"[ ()]", "", it)).groups() for it in texts)


def version_of_crnplan():
    """Returns the version of crnplan in this checkout."""
    with open(f"{TOP}/planner/src/crnplan/__init__.py", encoding="utf-8") as file:
        return VERSION.search(file.read())[1]


def is_less(version, least):
    """Returns whether a version is less than another."""
    one, other = (
        [int(it) for it in re.findall(r"\d+", text)] for text in (version, least)
    )
    return one < other


def version_of(library):
    """Returns the version of an installed library, or None."""
    try:
        return importlib.metadata.version(library)
    except importlib.metadata.PackageNotFoundError:
        return None


def unmet(asked):
    """Returns why the libraries are not those that crnplan requires, or None."""
    for library, least in asked.items():
        version = version_of(library)
        if version is None or is_less(version, least):
            return (
                f"{library} {version} is older than {least}"
                if version
                else f"{library} is missing"
            )
    return None


def is_of_here(script):
    """Returns whether a script of the environment is there and names its folder."""
    path = f"{sys.prefix}/bin/{script}"
    if not os.path.isfile(path):
        return False
    with open(path, encoding="utf-8") as file:
        home = HOME.search(file.read())
    return home is not None and os.path.realpath(
        home[1] or home[2]
    ) == os.path.realpath(sys.prefix)


def installed_otherwise(project, asked):
    """Returns why crnplan is not installed as its pyproject.toml says, or None."""
    found = next(
        iter(
            importlib.metadata.distributions(
                name="crnplan", path=[sysconfig.get_path("purelib")]
            )
        ),
        None,
    )
    spec = importlib.util.find_spec("crnplan")
    if found is None or spec is None or spec.origin is None:
        return "crnplan is missing"
    if os.path.realpath(spec.origin) != os.path.realpath(
        f"{TOP}/planner/src/crnplan/__init__.py"
    ):
        return f"crnplan is that of {os.path.dirname(spec.origin)}"
    scripts = {
        it.name: it.value for it in found.entry_points if it.group == "console_scripts"
    }
    if (found.version, scripts, requirements(found.requires or [])) != (
        version_of_crnplan(),
        project["scripts"],
        asked,
    ):
        return "what planner/pyproject.toml declares has changed"
    broken = [it for it in scripts if not is_of_here(it)]
    return f".venv/bin/{broken[0]} is missing or of another place" if broken else None


def wrong(prefix):
    """Returns the line that says what is wrong, or None."""
    if os.path.realpath(sys.prefix) != os.path.realpath(f"{TOP}/.venv"):
        return "make it is no virtual environment"
    if sys.version_info < (3, 11):
        return f"make its Python is {sys.version.split()[0]}, and crnplan requires 3.11"
    if prefix is not None and sys.base_prefix != prefix:
        return f"make it is made from the Python of {sys.base_prefix}"
    if any(
        os.path.islink(f"{at}/{it}")
        for at, *inside in os.walk(sys.prefix)
        for it in sum(inside, [])
    ):
        return "make it has a link, for which rt refuses the repository"
    if not is_of_here("activate"):
        return "make it was made at another place"
    import tomllib

    with open(f"{TOP}/planner/pyproject.toml", "rb") as file:
        project = tomllib.load(file)["project"]
    extras = project["optional-dependencies"].values()
    asked = requirements(
        [*project["dependencies"], *(it for extra in extras for it in extra)]
    )
    if why := unmet(asked):
        return f"make {why}"
    why = installed_otherwise(project, asked)
    return why and f"install {why}"


if __name__ == "__main__":
    print(wrong(sys.argv[1] if len(sys.argv) > 1 else None) or "", end="")
