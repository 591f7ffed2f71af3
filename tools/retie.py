#!/usr/bin/env python3
"""Brings the proofs by hand (proofs/F/Proof.antt) to the names that the installed Rattle makes for steps, places and goals.

usage: tools/retie.py NAMES [TREE] [CRATE..]

NAMES is the names.json that `rt check --generated FOLDER --old-names` writes, of one crate or of several (`rattle check` with --lib).
Run it once. What it does not know it leaves, and `rt check` says so.
"""

import json
import os
import re
import sys

NAME = r'[^\s(){}\[\].;,@"«»]+'
TOKEN = re.compile(r'--[^\n]*|"(?:[^"\\\n]|\\.)*"|' + NAME)
ENDS = {"holds": "init", "again": "preserved", "less": "smaller"}
# Words that every place and step has, in their old and their new spelling.
WORDS = {
    "well-formed": "well_formed", "type-inv": "type_inv", "good": "well_formed", "pre": "requires", "inv": "invariant", "post": "ensures", "kept": "auto",
    "entry": "initial", "came": "branch",
}


OF_LOOP = {"pre": "requires", "inv": "invariant"}
TESTED = {"taken": "true", "left": "false"}


def dashed(name):
    return name.replace("_", "-")


def module_file(tree, module):
    m = re.fullmatch(r"Rattle-(\w+)-proofs\.(.*)\.Lts(.*)", module)
    return m and (m[1], os.path.join(tree, "crates", m[1], "proofs", *m[2].split("."), "Proof.antt"))


class Names:
    """What the names of one function, or of one cycle of calls, are now."""

    def __init__(self, of):
        self.place, self.step, self.need, self.loops, self.paths, self.fields = {}, {}, {}, {}, [], {}
        self.parent, self.depth, self.callee, self.of_new = {}, {}, {}, {}
        for (old, up, step, callee, facts), new, arm in zip(of["places"], of["places_by_name"], of["arms"]):
            self.place[dashed(old)] = new
            self.of_new[dashed(old)] = new
            self.parent[dashed(old)] = up and dashed(up)
            self.depth[dashed(old)] = arm[1] if arm else 1
            if step[0]:
                self.step[dashed(step[0])] = step[1]
                if callee in of["params"]:
                    self.callee[dashed(step[0])] = of["params"][callee]
                for was, now in facts:
                    self.fields.setdefault(dashed(step[0]), {})[was] = now
        self.canon = {it: it for it in self.parent}
        arms = {dashed(place[0]): arm for place, arm in zip(of["places"], of["arms"]) if arm}
        for place in reversed(list(self.parent)):
            up = self.parent[place]
            if place in arms and up in arms and arms[up][0] == arms[place][0] and arms[up][1] + 1 == arms[place][1]:
                self.canon[up] = self.canon[place]
        for old in list(self.place):
            self.place[old] = self.of_new[self.canon[old]]
        self.asked, self.asked_listed, self.loops_listed = {}, [], of["loops"]
        for (old, new), (place, _) in zip(of["needs"], of["asked_at"]):
            self.need[dashed(old)] = new
            self.asked[dashed(old)] = dashed(place)
            self.asked_listed.append(dashed(place))
        for (old, new), variables in of["loops"]:
            self.loops[dashed(old)] = new
        for arm in of["arms"]:
            if arm:
                for field, step, path in arm[2]:
                    entry = (dashed(step), path, f"{arm[0]}.{field}")
                    if entry not in self.paths:
                        self.paths.append(entry)
        self.paths.sort(key=lambda it: -len(it[1]))
        self.arm_of = {place: arm[0] for place, arm in arms.items()}

    def of_arms(self, place):
        """The arms that the place is in, the nearest first; None of a place that is not known."""
        if place is None:
            return None
        found = []
        while place is not None:
            if place in self.arm_of and self.arm_of[place] not in found:
                found.append(self.arm_of[place])
            place = self.parent.get(place)
        return found

    def above(self, place):
        """The place that `before` leads to."""
        for _ in range(self.depth[place]):
            place = place and self.parent.get(place)
        return place


def merged(all_of):
    names = all_of[0]
    for other in all_of[1:]:
        for which in ("place", "step", "need", "loops", "fields", "parent", "depth", "asked", "callee", "canon", "arm_of"):
            getattr(names, which).update(getattr(other, which))
        names.paths += other.paths
        names.asked_listed += other.asked_listed
        names.loops_listed += other.loops_listed
    return names


def need_of(word, names):
    """The new name of a need in the old spelling, or None."""
    old = old_need(word, names)
    return old and names.need[old]


def old_need(word, names):
    word = dashed(word)
    for prefix in ("", "overflow-", "nonzero-"):
        if word.startswith(prefix):
            core = word[len(prefix):]
            for old in (core, re.sub(r"-(holds|again|less)(?=-|$)", lambda m: "-" + ENDS[m[1]], core)):
                if old in names.need:
                    return old
    return None


PATH = re.compile(rf'--[^\n]*|"(?:[^"\\\n]|\\.)*"|(?:\)|{NAME})(?:\.{NAME})+|{NAME}')
USES = re.compile(r"(?m)^(?:pub )?use [^\n]*\n")


def split(text, theorem_line):
    """The parts of an application, from the text behind `tie.spec`: words, and groups in parentheses."""
    parts, depth, start = [], 0, None
    for i, ch in enumerate(text):
        if ch in "([{":
            if depth == 0 and start is None:
                start = i
            depth += 1
        elif ch in ")]}":
            depth -= 1
            if depth < 0:
                if start is not None:
                    parts.append((start, i))
                return parts
        elif ch.isspace() and depth == 0:
            if start is not None:
                parts.append((start, i))
                start = None
        elif start is None:
            start = i
    if start is not None:
        parts.append((start, len(text)))
    return parts


class Places:
    """Which place each variable is at, so that a chain of `before` that ends at a place has its new length."""

    def __init__(self, names, tie):
        self.names, self.tie, self.at, self.accessor = names, tie, {}, {}

    def old_place(self, word):
        word = dashed(word)
        return word if word in self.names.parent else None

    def chain(self, place, count):
        """How many `before` lead from the place to what was `count` above it, or None. The places within an arm are one now."""
        goal = place
        for _ in range(count):
            goal = self.names.parent.get(goal)
            if goal is None:
                return None
        return self.chain_to(place, goal, count)

    def chain_to(self, place, goal, count=99):
        canon, n = self.names.canon, 0
        while place is not None and canon[place] != canon[goal]:
            place = self.names.above(place)
            n += 1
            if n > count:
                return None
        return n if place is not None else None


def turned(text, names, theorem, path, tie=None):
    """The text with the names of one function, which it reads off `tie`; where that is given, it is one function of a cycle of calls."""
    cycle = tie is not None
    found = re.search(r"(?m)^use \S+\.Tie as (\S+)", text)
    tie = tie or (found[1] if found else "tie")

    # a place before a call that is no longer one of its own: it is the place that the call is made at
    for word in re.findall(rf"\b{tie}\.({NAME})", text):
        gone = dashed(word)
        called = re.fullmatch(r"(After-.*)-arg\d*", gone)
        if called and gone not in names.parent and called[1] in names.parent:
            after = called[1]
            up = names.parent[after]
            names.parent[gone], names.parent[after] = up, gone
            names.depth[gone], names.depth[after] = names.depth[up] + 1, names.depth[after] + 1
            names.canon[gone] = names.canon[up]
            names.place[gone] = names.place[up]
    # the names that the file declares: an answer gets its goal's name, another gets underscores
    own = {}
    for name, need in re.findall(rf"(?m)^ *(?:abbrev |pub )*({NAME}) : {tie}\.Need-({NAME})", text):
        new = need_of(need, names)
        if new and not cycle:
            own[name] = new
    for name, kind in re.findall(rf"(?m)^ *(?:abbrev |pub )*({NAME}) : {tie}\.((?:invariant|decreases)-{NAME})", text):
        new = loop_word(kind, names)
        if new and not cycle:
            own[name] = new
    snake = lambda it: re.sub(r"(?<=[\w'])-(?=\w)", "_", it) if re.match(r"[a-z]", it) else it
    for name in re.findall(rf"(?m)^ *(?:abbrev |pub |unfoldable )*({NAME})(?: \{{[^{{}}\n]*\}})* :(?=\s)", text):
        if name.endswith("-spec") and name not in own:
            own[name] = theorem if not cycle or name.startswith("+") else name
        own.setdefault(name, snake(name))
    for name in re.findall(rf"\blet ({NAME}) [:=]", text):
        own.setdefault(name, snake(name))
    for group in re.findall(rf"[({{]((?:{NAME} )+):(?=\s)", text):
        for name in group.split():
            own.setdefault(name, snake(name))

    places = Places(names, tie)
    # abbrev f : tie.A .. → tie.B ..
    for name, a, b in re.findall(rf"(?m)^ *(?:abbrev |pub )*({NAME}) : {tie}\.({NAME})[^→=:]*→\s+{tie}\.({NAME})[^→=:]*\n *\1 ", text):
        if places.old_place(a) and places.old_place(b):
            places.accessor[name] = (dashed(a), dashed(b))
    blocks = re.split(r"(?m)(?=^ {0,2}\S)" if cycle else r"(?m)(?=^\S)", text)
    out = []
    of_name = {}
    for name, need in re.findall(rf"(?m)^ *(?:abbrev |pub )*({NAME}) : {tie}\.Need-({NAME})", text):
        old = old_need(need, names)
        if old:
            of_name[name] = names.asked[old]
    for block in blocks:
        at = {}
        for name, kind in re.findall(rf"\(({NAME}) : {tie}\.({NAME})", block):
            if places.old_place(kind):
                at[name] = dashed(kind)
        head = re.match(rf" *(?:abbrev |pub )*({NAME})((?: {NAME})*) =", block)
        if head and head[2]:
            params = head[2].split()
            if head[1] in of_name:
                at[params[-1] if len(params) == 1 else params[0]] = of_name[head[1]]
            elif head[1] in places.accessor:
                at[params[0]] = places.accessor[head[1]][0]
            elif head[1] in places.at:
                at[params[0]] = places.at[head[1]]
        sig = re.match(rf" *(?:abbrev |pub )*({NAME}) : (?:\(({NAME}) : )?{tie}\.({NAME})", block)
        if sig and places.old_place(sig[3]):
            places.at[sig[1]] = dashed(sig[3])
        out.append(one_block(block, names, tie, own, places, at, theorem, path))
    text = "".join(out)
    # a field that is read off an earlier place is read off the place itself
    for _ in range(4):
        text = re.sub(r"\(([a-z][\w']*)((?:\.before)*)\)(?=\.before|\.)", r"\1\2", text)
        for name in places.accessor:
            text = re.sub(rf"\({re.escape(own.get(name, name))} ([a-z][\w']*)(?:\.before)*\)(?:\.before)*\.(?!before\b)", r"\1.", text)
    return re.sub(r"(?<![\w.)])([a-z][\w']*)(?:\.before)+\.(?!before\b)", r"\1.", text)


def one_block(block, names, tie, own, places, at, theorem, path):
    if re.match(r"(pub )?use ", block):
        return block
    # the goals of `tie.spec`, by position
    spans = []
    spec = re.search(rf"\b{tie}\.spec\s", block)
    if spec:
        parts = split(block[spec.end():], None)
        loops = len(names.loops_listed) * 2
        parts = parts[loops:] if len(parts) >= loops else parts
        parts = [(a + spec.end(), b + spec.end()) for a, b in parts]
        if len(parts) != len(names.asked_listed):
            print(f"look: {path}: {len(parts)} answers for {len(names.asked_listed)} goals")
        for (a, b), place in zip(parts, names.asked_listed):
            spans.append((a, b, place))
    res, last = [], 0
    env = dict(at)
    defined = re.match(rf" *(?:abbrev |pub )*({NAME}) (?:{NAME} )*=", block)
    defined = defined and defined[1] in places.accessor and defined[1]
    not_places, of_step, alias = set(), {}, {}
    for m in PATH.finditer(block):
        if m.start() < last:
            continue
        res.append(block[last:m.start()])
        last = m.end()
        word = m[0]
        if word.startswith(("--", '"')):
            res.append(word)
            continue
        parts = word.split(".")
        head, rest = parts[0], parts[1:]
        for a, b, place in spans:
            if a <= m.start() < b:
                bound = re.match(rf"\(λ ({NAME})", block[a:b])
                env = dict(at)
                if bound:
                    env[bound[1].rstrip(".")] = place
        # a variable that a `let` binds to a place
        let = re.search(rf"\blet ({NAME})(?: : {tie}\.{NAME}[^=\n]*)? = \(?\Z", block[:m.start()])
        if let:
            bind(let[1], block[m.start() - 1:], names, places, env, not_places, of_step)
            alias.pop(let[1], None)
            value = re.match(rf"((?:{NAME})(?:\.{NAME})+) in\b", block[m.start():])
            if value:
                path_of = [it for it in value[1].split(".")[1:] if it != "before"]
                if path_of and any(it[0] == dashed(path_of[0]) and len(it[1]) > len(path_of) - 1 and it[1][:len(path_of) - 1] == path_of[1:] for it in names.paths):
                    alias[let[1]] = (dashed(path_of[0]), path_of[1:])
        if head == tie:
            res.append(".".join([head, of_tie(rest[0], names)] + rest[1:]))
            continue
        if not rest:
            label = re.match(r" =(?=\s)", block[m.end():]) and re.search(r"[{;]\s*\Z", block[:m.start()])
            res.append(re.sub(r"(?<=[\w'])-(?=\w)", "_", head) if label else own.get(head, head))
            continue
        head_new = own.get(head, head) if head != ")" else head
        befores = 0
        while befores < len(rest) and rest[befores] == "before":
            befores += 1
        tail = rest[befores:]
        if not tail:
            if head == ")":
                opened = depth = 0
                for opened in range(m.start(), -1, -1):
                    depth += {")": 1, "(": -1}.get(block[opened], 0)
                    if depth == 0:
                        break
                caller = re.match(rf"\(({NAME}) ", block[opened:])
                place = caller and caller[1] in places.accessor and places.accessor[caller[1]][1]
                n = place and places.chain(place, befores)
                befores = befores if n is None else n
            elif head in env and defined and not block[m.end():].strip() and re.search(r"= *\Z", block[:m.start()]):
                n = places.chain_to(*places.accessor[defined])
                befores = befores if n is None else n
            elif head in env:
                n = places.chain(env[head], befores)
                caller = re.search(rf"({NAME}) \Z", block[:m.start()])
                if n is None and caller and caller[1] in places.accessor:
                    # an accessor that begins at a place that is gone: its end is read off the place before
                    end, far = places.accessor[caller[1]][1], befores
                    goal = env[head]
                    while goal is not None and goal != end:
                        goal = names.parent.get(goal)
                    n = goal and places.chain(env[head], distance(names, env[head], end))
                    if n is not None:
                        tail_of = res[-1]
                        res[-1] = tail_of[: len(tail_of) - 1]
                        for back in range(len(res) - 1, -1, -1):
                            if res[back] == own.get(caller[1], caller[1]):
                                res[back] = ""
                                break
                if n is None:
                    print(f"look: {path}: {word} leads to a place that is no longer one")
                    n = befores
                befores = n
            res.append(".".join([head_new] + ["before"] * befores))
            continue
        if head in alias and not befores:
            step, below = alias[head]
            found = next((it for it in names.paths if it[0] == step and (below + tail)[:len(it[1])] == it[1]), None)
            if found:
                res.append(".".join([head_new, found[2].rsplit(".", 1)[1]] + (below + tail)[len(found[1]):]))
                continue
        if head in of_step and not befores:
            res.append(".".join([head_new] + of_call(tail, names.callee.get(of_step[head]))))
            continue
        if head == ")" and not befores:
            opened = depth = 0
            for opened in range(m.start(), -1, -1):
                depth += {")": 1, "(": -1}.get(block[opened], 0)
                if depth == 0:
                    break
            caller = re.match(rf"\(+({NAME})", block[opened:])
            called = caller and not caller[1].startswith(("λ",)) and caller[1].split(".")[0]
            if called and called not in places.accessor and called not in env and called != tie:
                res.append(word)
                continue
        if head in not_places and not befores:
            res.append(".".join([head_new, OF_LOOP.get(tail[0], tail[0])] + tail[1:]))
            continue
        res.append(".".join([head_new] + fields(tail, names, env.get(head))))
    res.append(block[last:])
    return "".join(res)


def of_call(rest, params):
    """What a path reads off a call: what it left of a parameter goes by the parameter's name."""
    if rest and rest[0] in ("new", "last", "auto", "kept") and params:
        k = 1
        while k < len(rest) and rest[k] == "1":
            k += 1
        if k < len(rest) and rest[k] == "0" and k - 1 < len(params):
            return [{"last": "new", "kept": "auto"}.get(rest[0], rest[0]), params[k - 1]] + rest[k + 1:]
    return [{"last": "new"}.get(rest[0], WORDS.get(rest[0], rest[0]))] + rest[1:] if rest else []


def bind(name, text, names, places, env, not_places, of_step):
    """What a `let` makes of a name: a place, a step, or a value."""
    env.pop(name, None)
    not_places.discard(name)
    of_step.pop(name, None)
    text = text[1:] if text[0] != "(" else text
    plain = re.match(rf"({NAME})((?:\.before)*) in\b", text)
    called = re.match(rf"\(({NAME}) (?:[^=\n()]|\([^()\n]*\))+\)((?:\.before)*) in\b", text)
    called = called or re.match(rf"({NAME}) (?:[^=\n()]|\([^()\n]*\)(?:\.before)*)+() in\b", text)
    if plain:
        place, count = env.get(plain[1]), plain[2].count("before")
    elif called and called[1] in places.accessor:
        place, count = places.accessor[called[1]][1], called[2].count("before")
    elif re.match(rf"({NAME}) [^=\n]*[^=\n ] in\b", text) and not re.match(rf"({NAME}) [^\n]*\.({NAME}) in\b", text):
        not_places.add(name)
        return
    else:
        read = re.match(rf"[^\n=]*?\.({NAME}) in\b", text)
        if read and re.search(r"[(]", read[0]) and read[0].count("(") != read[0].count(")"):
            read = None
        if read and dashed(read[1]) in names.callee:
            of_step[name] = dashed(read[1])
        elif read and read[1] != "before":
            not_places.add(name)
        return
    for _ in range(count):
        place = place and names.parent.get(place)
    if place:
        env[name] = place


def distance(names, place, end):
    n = 0
    while place is not None and place != end:
        place, n = names.parent.get(place), n + 1
    return n


def fields(tail, names, place=None):
    """What a path reads off a place, in new words."""
    within = names.of_arms(place)
    paths = names.paths if within is None else [it for arm in within for it in names.paths if it[2].rsplit(".", 1)[0] == arm]
    plain = dashed(tail[0])
    if plain not in names.step and plain[:1].lower() + plain[1:] in names.step:
        plain = plain[:1].lower() + plain[1:]
    if plain == "fits" and "fits" not in names.step and len(tail) > 1:
        return ["ranges"] + tail[1:]
    for step, below, new in paths:
        if plain == step and tail[1:1 + len(below)] == below:
            return [new] + tail[1 + len(below):]
    for step, below, new in paths:
        if plain == step and below[:len(tail) - 1] == tail[1:]:
            # a part of what an arm binds: the arm's record
            return [new.rsplit(".", 1)[0]]
    if plain in names.step:
        rest = [TESTED.get(tail[1], tail[1])] + tail[2:] if len(tail) > 1 else []
        if rest and rest[0] in names.fields.get(plain, {}):
            rest = [names.fields[plain][rest[0]]] + rest[1:]
        return [names.step[plain]] + of_call(rest, names.callee.get(plain))
    return [WORDS.get(tail[0], tail[0])] + tail[1:]


def loop_word(kind, names):
    head, _, loop = kind.partition("-")
    if loop in names.loops.values():
        return kind
    return f"{head}-{names.loops[dashed(loop)]}" if dashed(loop) in names.loops else None


def of_tie(word, names):
    if word.startswith("Need-"):
        new = need_of(word[5:], names)
        return f"Need-{new}" if new else word
    if word.startswith(("invariant-", "decreases-")):
        return loop_word(word, names) or word
    if dashed(word) in names.place:
        return names.place[dashed(word)]
    return word


def cycle_turned(text, members, theorem, path):
    """A proof of a cycle of calls: each part is of the function whose names it reads."""
    aliases = dict(re.findall(r"(?m)^use \S+\.(Lts-\w+) as (\S+)", text))
    whole = {alias: re.split(r"(\n\n)", turned(text, members[module], theorem, path, alias)) for module, alias in aliases.items()}
    out, last = [], None
    for i, part in enumerate(re.split(r"(\n\n)", text)):
        named = [alias for alias in whole if re.search(rf"(?<![\w-]){re.escape(alias)}\.", part)]
        if len(named) == 1:
            last = named[0]
        elif len(named) > 1:
            print(f"look: {path}: a part reads the names of several functions")
        out.append(whole[last or next(iter(whole))][i])
    return "".join(out)


def main(argv):
    with open(argv[0], encoding="utf-8") as it:
        listed = json.load(it)
    tree = argv[1] if len(argv) > 1 else os.path.dirname(os.path.dirname(os.path.abspath(__file__)))
    only = set(argv[2:])
    by_file, members = {}, {}
    for module, of in listed.items():
        found = ".Lts" in module and module_file(tree, module)
        if found and (not only or found[0] in only):
            by_file.setdefault(found[1], []).append(Names(of))
            members.setdefault(found[1], {})[module.rsplit(".", 1)[1]] = Names(of)
    for path, all_of in sorted(by_file.items()):
        if not os.path.isfile(path):
            continue
        with open(path, encoding="utf-8", newline="") as it:
            text = it.read()
        function = os.path.basename(os.path.dirname(path))
        if function.startswith("+"):
            new = cycle_turned(text, members[path], function + "_spec", path)
        else:
            new = turned(text, merged(all_of), function + "_spec", path)
        if new != text:
            with open(path, "w", encoding="utf-8", newline="") as it:
                it.write(new)
            print(path)
    return 0


if __name__ == "__main__":
    sys.exit(main(sys.argv[1:]))
