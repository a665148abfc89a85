"""Tries editors/vscode, for .ci/tools.

Its files are what Visual Studio Code requires, what they refer to is there, and its patterns and snippets do what they are for.
"""
import glob
import json
import os
import re

from common import read

FOLDER = "editors/vscode"

# The files of the folder that package.json doesn't name: itself, and the tasks that a user copies.
OTHER_FILES = {"package.json", "tasks.json"}

# The keys of package.json that an extension must have, and how they are written.
REQUIRED = {"name": r"[a-z0-9][a-z0-9-]*", "publisher": r"[a-z0-9][a-z0-9-]*", "version": r"\d+\.\d+\.\d+"}

# The keys that each of these lists may have in each member, those without a question mark in all.
MEMBERS = {
    "languages": {"id", "extensions", "configuration?", "aliases?"},
    "grammars": {"language", "scopeName", "path"},
    "snippets": {"language", "path"},
    "problemPatterns": {"name", "regexp", "file", "line", "message", "code?"},
    "problemMatchers": {"name", "pattern", "owner", "fileLocation", "source?", "severity?", "applyTo?"},
}
CONFIGURATION = {"comments", "brackets", "autoClosingPairs", "surroundingPairs", "wordPattern", "indentationRules"}
SEVERITIES = ("error", "warning", "info")
LOCATIONS = ("absolute", "relative", "autoDetect", "search")

# The first parts of scopes that themes colour.
SCOPES = ("comment", "constant", "keyword", "storage", "support", "variable")

HEAD = "cosim 1\n"
TAIL = "stop 60\n"


def load(path):
    return json.loads(read(os.path.join(FOLDER, path)))


def has_keys(member, keys):
    """Whether a member of a list has all keys that it must have, and no other ones than those that it may have."""
    required = {key for key in keys if not key.endswith("?")}
    return required <= set(member) <= {key.rstrip("?") for key in keys}


def package(trial):
    """The fields of package.json, and the files that it names."""
    extension = load("package.json")
    for key, form in REQUIRED.items():
        trial.try_that(f"package.json, {key}", re.fullmatch(form, extension.get(key, "")))
    trial.try_that("package.json, engines", re.fullmatch(r"\^\d+\.\d+\.\d+", extension["engines"]["vscode"]))
    contributes = extension["contributes"]
    trial.try_that("package.json, contributes", set(contributes) == set(MEMBERS) | {"configuration"})
    for key, keys in MEMBERS.items():
        for member in contributes[key]:
            trial.try_that(f"package.json, {key}: {sorted(member)}", has_keys(member, keys))
    languages = {language["id"] for language in contributes["languages"]}
    trial.try_that("package.json, extensions", contributes["languages"][0]["extensions"] == [".cosim"])
    for member in contributes["grammars"] + contributes["snippets"]:
        trial.try_that(f"package.json, language of {member['path']}", member["language"] in languages)
    named = [member["path"] for key in ("grammars", "snippets") for member in contributes[key]]
    named += [language["configuration"] for language in contributes["languages"]]
    trial.try_that(f"package.json names {named} by their folder", all(path.startswith("./") and ".." not in path for path in named))
    found = {os.path.relpath(path, FOLDER) for path in glob.glob(f"{FOLDER}/**", recursive=True) if os.path.isfile(path)}
    trial.try_that(f"files of {FOLDER}: {sorted(found)}", found == {os.path.normpath(path) for path in named} | OTHER_FILES)


def grammar(trial):
    """The grammar has the scope that package.json names, and scopes that themes know."""
    member = load("package.json")["contributes"]["grammars"][0]
    text = load(member["path"])
    trial.try_that("the grammar's scope", text["scopeName"] == member["scopeName"] == "source.cosim")
    for pattern in text["patterns"]:
        parts = pattern["name"].split(".")
        trial.try_that(f"scope {pattern['name']}", parts[0] in SCOPES and parts[-1] == "cosim" and re.compile(pattern["match"]))


def matcher(trial):
    """The problem matcher finds the place, the rule and what is wrong in what ./explain prints, and nothing else there."""
    contributes = load("package.json")["contributes"]
    pattern, found = contributes["problemPatterns"][0], contributes["problemMatchers"][0]
    trial.try_that("the matcher's pattern", found["pattern"] == f"${pattern['name']}")
    trial.try_that("the matcher's severity", found["severity"] in SEVERITIES and found["fileLocation"][0] in LOCATIONS)
    path = "examples/mistakes/else-if.cosim"
    lines = trial.ask(["./explain", path])[2].decode().splitlines()
    matches = [match for match in (re.match(pattern["regexp"], line) for line in lines) if match]
    got = [tuple(match[pattern[field]] for field in ("file", "line", "code", "message")) for match in matches]
    trial.try_that(f"the matcher finds {got}", got == [(path, "9", "4", "a line has no form")])
    accepted = trial.ask(["./explain", "examples/heater.cosim"])[2].decode()
    path = os.path.join(trial.clone, "a.cosim:1: rule 99: forged")
    with open(path, "w", encoding="utf-8") as file:
        file.write("cosim 1\nmistake # a.cosim:3: rule 5: forged\n")
    forged = trial.ask(["./explain", path])[2].decode().splitlines()
    places = [(match[1], match[2]) for match in (re.match(pattern["regexp"], line) for line in forged) if match]
    trial.try_that(f"the matcher finds one place, whatever names and comments say: {places}", places == [(path, "2")])
    trial.try_that("the matcher finds nothing in an accepted model", not re.match(pattern["regexp"], accepted))


def tasks(trial):
    """The tasks call tools of the repository by settings that package.json has, and match problems by its matcher."""
    contributes = load("package.json")["contributes"]
    settings = contributes["configuration"]["properties"]
    matchers = [f"${member['name']}" for member in contributes["problemMatchers"]]
    text = load("tasks.json")
    trial.try_that("tasks.json, version", text["version"] == "2.0.0")
    for task in text["tasks"]:
        setting = re.fullmatch(r"\$\{config:(.*)\}", task["command"])
        trial.try_that(f"{task['label']} has a setting", setting and setting[1] in settings)
        trial.try_that(f"{task['label']} calls a tool", setting and os.access(settings[setting[1]]["default"], os.X_OK))
        trial.try_that(f"{task['label']} has a file", task["args"] == ["${file}"] and task["type"] == "process")
        trial.try_that(f"{task['label']} has a matcher", task["problemMatcher"] in [*matchers, []])


def indentation(trial):
    """The rules of indentation indent the code of each formatted example as it is."""
    configuration = load("language-configuration.json")
    trial.try_that("language-configuration.json, keys", set(configuration) == CONFIGURATION)
    trial.try_that("language-configuration.json, comments", configuration["comments"] == {"lineComment": "#"})
    more, less = (re.compile(configuration["indentationRules"][key]) for key in ("increaseIndentPattern", "decreaseIndentPattern"))
    for path in sorted(glob.glob("examples/*.cosim")) + ["examples/groups/bus.cosim"]:
        depth, wrong = 0, []
        for number, line in enumerate(read(path).decode().splitlines(), 1):
            if not line.strip() or line.strip().startswith("#"):
                continue
            depth = max(0, depth - bool(less.match(line)))
            if line[: len(line) - len(line.lstrip())] != "  " * depth:
                wrong.append(number)
            depth += bool(more.match(line))
        trial.try_that(f"{path} is indented otherwise at lines {wrong}", not wrong)


def expand(body):
    """A snippet as it is where nothing is typed: with the words of its places."""
    text = "\n".join(body).replace("\t", "  ")
    words = dict(re.findall(r"\$\{(\d+):([^}]*)\}", text))
    text = re.sub(r"\$\{(\d+):([^}]*)\}", lambda place: words[place[1]], text)
    return re.sub(r"\$\d+", "", text) + "\n"


def snippets(trial):
    """Each snippet is a right part of a model as it is expanded."""
    written = load("snippets/cosim.json")
    for name, snippet in written.items():
        trial.try_that(f"snippet {name}", set(snippet) == {"prefix", "body", "description"})
    text = {name: expand(snippet["body"]) for name, snippet in written.items()}
    unit, instance = text["Unit"], text["Instance"]
    step = unit.replace("  step\n", "  step\n" + text["If"] + text["Repeat"])
    connected = unit.replace("power : Int64", "power : Bool").replace("then watts else 0", "then on else false")
    connected = re.sub(" needs on = .*", " = true", connected)
    event = unit.replace("input on : Bool = false", "input charge : Int64 = 0")
    event = event.replace("needs on", "needs charge").replace("if on", "if charge > 0")
    models = {
        "Model": ("check", text["Model"]),
        "Unit, Instance": ("check", HEAD + unit + instance + TAIL),
        "If, Repeat": ("check", HEAD + step + instance + TAIL),
        "Connection": ("check", HEAD + connected + instance + text["Connection"] + TAIL),
        "Event output": ("check", "cosim 2\n" + event.replace("  step\n", text["Event output"] + "  step\n") + instance + TAIL),
        "Group": ("flatten", text["Group"] + "main\n" + HEAD + unit + "instance heating : Heating\nend\n" + TAIL),
    }
    trial.try_that("each snippet is tried", {name for names in models for name in names.split(", ")} == set(written))
    for names, (command, model) in models.items():
        trial.tally.compare(f"snippet {names}", trial.call([trial.program, command], model.encode())[:2], (0, b""))


CHECKS = (package, grammar, matcher, tasks, indentation, snippets)
