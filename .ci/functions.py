"""The functions of a crate, as the prover names them, and copies of a crate in which most functions have an empty body: `loop {}`."""
import re
import shutil
from pathlib import Path

FUNCTION = re.compile(r'(\s*)(?:pub(?:\([a-z]+\))? )?(?:const |unsafe )*(?:extern "C" )?fn (\w+)')
IMPL = re.compile(r"impl(?:<.*?>)? (?:(?:\w+::)*(\w+)(?:<((?:\w+::)*[A-Z]\w+)?.*>)? for )?(\w+)(?:<([A-Z]\w+)>)?")
TRAIT = re.compile(r"(?:pub(?:\([a-z]+\))? )?trait (\w+)")
# A proof that is left open, which is called a hole. A check with holes treats the contract of the function as proved.
HOLE = "use Rattle.{path}.Statement.{{statement}}\n\npub {name}_spec : {{M : Type 1}} → statement M\n{name}_spec = ?\n"


def module_of(file):
    """Returns the path of the module that a file of `src/` has, below the crate."""
    return [part for part in Path(file).with_suffix("").parts[1:] if part not in ("lib", "main")]


def type_of(lines):
    """Returns the type or the trait that the impl or trait is for which the last of these lines are in. It is `Any` for a type parameter, and an
    empty text for a type without a name, such as a reference."""
    for line in reversed(lines):
        trait = TRAIT.match(line)
        if trait:
            return trait[1]
        made = IMPL.match(line)
        if made:
            return "" if " for " in line and not made[1] else "Any" if len(made[3]) == 1 else made[3]
    return ""


def owner_of(lines):
    """Returns the name that the prover gives to the impl or trait which the last of these lines are in."""
    for line in reversed(lines):
        if TRAIT.match(line):
            break
        made = IMPL.match(line)
        if made:
            arguments = [made[4] if made[1] else None, made[1], *(made[2] or "").split("::")]
            return type_of([line]) + "".join(part[:1].upper() + part[1:] for part in arguments if part)
    return type_of(lines)


def path_of(file, lines, head):
    """Returns the path below the crate of the function with this head, which comes after these lines of a file."""
    owner = [owner_of(lines)] if head[1] else []
    return [*module_of(file), *owner, head[2]]


def function_at(file, text):
    """Returns the path of the function in which this beginning of a file ends, or of the module, with `::` at its end."""
    lines = text.splitlines()
    for number in range(len(lines) - 1, -1, -1):
        head = FUNCTION.match(lines[number])
        if head:
            return "::".join(path_of(file, lines[:number], head))
        if re.match(r"(pub )?(type|const|struct|enum|use)\b", lines[number]):
            break
    return "::".join([*module_of(file), ""])


def functions_of_type(file, text, name):
    """Returns the paths of the functions of the impls of a type in a file with this text."""
    lines = text.splitlines()
    heads = [(number, FUNCTION.match(line)) for number, line in enumerate(lines)]
    paths = [path_of(file, lines[:number], head) for number, head in heads if head]
    return {"::".join(path) for path in paths if name in path[:-1]}


class Function:
    """A function of a file whose body has lines of its own: its path, its indent, the numbers of the lines that open and close the body, and
    the number of the attribute that names its cycle of calls, if it has one."""

    def __init__(self, file, lines, number, head):
        self.path = path_of(file, lines[:number], head)
        self.indent = head[1]
        self.opening, self.closing = body_after(lines, number, head[1])
        self.cycle = cycle_before(lines, number)


def body_after(lines, number, indent):
    """Returns the numbers of the lines that open and close the body of the function whose head is this line. `rt fmt` lays files out in this
    way. Returns a pair of `None` if the function has no body, or one in a single line."""
    depth = 0
    for opening in range(number, len(lines)):
        line = lines[opening]
        outside = not line.startswith(indent + " ")
        if outside and line.endswith("{"):
            return opening, lines.index(indent + "}", opening)
        depth += line.count("{") - line.count("}")
        if depth == 0 and line.endswith(";") or outside and line.endswith("}"):
            break
    return None, None


def cycle_before(lines, number):
    """Returns the number of the line that names the cycle of calls of the function whose head is this line, if there is one."""
    while number > 0 and lines[number - 1].lstrip().startswith("#["):
        number -= 1
        if lines[number].lstrip().startswith("#[cycle("):
            return number
    return None


def functions_of(file, lines):
    """Returns the functions of a file that can get an empty body. Leaves out functions whose body is in a single line, and `const` functions,
    because types may depend on them. Leaves out the functions of impls for types that are not declared in the file, because the prover has other
    names for some of them."""
    declared = {found[1] for line in lines if (found := re.match(r"(?:pub(?:\([a-z]+\))? )?(?:struct|enum|trait) (\w+)", line))}
    functions = []
    for number, line in enumerate(lines):
        head = FUNCTION.match(line)
        if head and "const " not in head[0] and (not head[1] or type_of(lines[:number]) in declared | {"Any"}):
            functions.append(Function(file, lines, number, head))
    return [function for function in functions if function.opening is not None]


def empty_bodies(folder, crate, kept):
    """Gives the functions of a copy of a crate an empty body, and a hole as their proof. Functions whose paths are in `kept` stay as they are, and
    so do the other functions of their cycles."""
    for file in sorted((folder / "src").glob("**/*.rt")):
        lines = file.read_text().split("\n")
        functions = functions_of(file.relative_to(folder), lines)
        stay = [function for function in functions if "::".join([crate, *function.path]) in kept]
        cycles = {lines[function.cycle] for function in stay if function.cycle is not None}
        # From the last one to the first, so that the numbers of the lines above stay right.
        for function in reversed(functions):
            if function in stay or function.cycle is not None and lines[function.cycle] in cycles:
                continue
            lines[function.opening + 1 : function.closing] = [f"{function.indent}    loop {{}}"]
            if function.cycle is not None:
                del lines[function.cycle]
            leave_hole(folder / "proofs", crate, function.path)
        file.write_text("\n".join(lines))


def leave_hole(proofs, crate, path):
    """Puts a hole in the place of the proof of a function."""
    for name in (path[-1], f"+{path[-1]}"):
        shutil.rmtree(proofs.joinpath(*path[:-1], name), ignore_errors=True)
    place = proofs.joinpath(*path)
    place.mkdir(parents=True)
    (place / "Proof.antt").write_text(HOLE.format(path=".".join([crate, "proofs", *path]), name=path[-1]))
