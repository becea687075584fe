"""What the scripts that change projects are asked for, and what they do alike."""
import argparse
import os
import sys
from collections.abc import Callable, Iterator
from pathlib import Path

from cuts import masters, mixes, null_tests, nulls
from cuts.mixes import MOST_CLIPS
from cuts.projects import Project, Spot
from dsdarc_scripts.explained import shown_name
from dsdarc_scripts.outputs import Outputs, Refused


def usual(parser: argparse.ArgumentParser) -> None:
    """The arguments of both."""
    parser.add_argument("project", type=Path)
    parser.add_argument("-o", "--output", type=Path, required=True, metavar="NEW")
    parser.add_argument("--take", type=Path, metavar="FILE", help="the take of seams, DSDIFF (NEW.seams.dff)")
    mix = "the mix that is asked for, for the null test (NEW.mix.toml)"
    parser.add_argument("--mix", type=Path, metavar="FILE", help=mix)
    parser.add_argument("--cut", type=int, nargs="+", metavar="N", help="these cuts alone, counted from 0")
    going = "leave the cuts that are refused as they are; the status is 1 then"
    parser.add_argument("--keep-going", action="store_true", help=going)


def parsed(parser: argparse.ArgumentParser, kind: str = "seams") -> argparse.Namespace:
    """What is asked for, with the name of the take that is written: of seams, or of another kind."""
    asked = parser.parse_args()
    asked.take = asked.take or Path(f"{os.path.splitext(asked.output)[0]}.{kind}.dff")
    try:
        str(asked.take).encode()
    except UnicodeEncodeError:
        raise Refused(f"--take: {shown_name(str(asked.take))} is no text in UTF-8, so no project can name it") from None
    return asked


def add_outputs(files: Outputs, asked: argparse.Namespace) -> None:
    """Takes the files that are to be written. A new project that is no file, such as a pipe, has no mix beside it."""
    files.add("--take", asked.take)
    files.add("-o", asked.output)
    if asked.mix is None and files.files[os.fspath(asked.output)].is_plain:
        asked.mix = null_tests.beside(asked.output)
    if asked.mix is not None:
        files.add("--mix", asked.mix)


def changed(asked: argparse.Namespace, change: Callable[[Project, argparse.Namespace], int]) -> int:
    """Changes a project, and writes it with the takes that were made and the mix. The status is 1 if `change` says that
    cuts were refused."""
    project = Project(asked.project)
    with Outputs(project.inputs) as files:
        add_outputs(files, asked)
        refused = change(project, asked)
        if project.seams:
            files.put(asked.take, project.seam_file())
        else:
            files.drop(asked.take)
        for take in project.made_shifted():
            files.add("the take of shifted channels", take.name)
            with files.open(take.name) as file:
                take.write(file)
        files.put(asked.output, project.text())
        put_mix(files, asked, project)
    return 1 if refused else 0


def put_mix(files: Outputs, asked: argparse.Namespace, project: Project) -> None:
    """Writes the mix, and prints if its limit is another one than its kinds of cuts promise."""
    if asked.mix is None:
        return
    mix = mixes.mix_of(project)
    if len(mix.clips) > MOST_CLIPS:
        why = f"it would have {len(mix.clips)} clips, and there is room for {MOST_CLIPS}"
        print(f"{masters.script()}: no mix is written: {why}", file=sys.stderr)
        files.drop(asked.mix)
        return
    limit, line = nulls.limit_of(project, mix)
    if line:
        print(line)
    files.put(asked.mix, mixes.text_of(mix, limit, asked.output.name, str(asked.mix)))


def goes_on(project: Project, spot: Spot) -> bool:
    """Whether a take goes on at a cut, as where a cue begins for its title alone."""
    before, after = project.cues[spot.before], project.cues[spot.after]
    is_same = project.names[before["take"]] == project.names[after["take"]]
    return spot.role == "plain" and is_same and before["stop"] == after["start"]


def cuts_of(project: Project, wished: list[int] | None, staying: set[str], what: str) -> list[int]:
    """The cuts that are asked for. Those of some kinds stay: a line and where a take goes on always, and what was made
    before unless it is asked for by its number."""
    spots = project.spots()
    for it in wished or ():
        if not 0 <= it < len(spots):
            raise Refused(f"there is no cut {it}: the project has {len(spots)}, counted from 0")
    found = []
    for number in sorted(set(range(len(spots)) if wished is None else wished)):
        role = spots[number].role
        if role == "line" or wished is None and role in staying:
            why = "its bridge goes in a line" if role == "line" else f"it has a {role}; --cut {number} makes it again"
            print(f"cut {number}: stays, as {why}")
        elif goes_on(project, spots[number]):
            print(f"cut {number}: stays, as its take goes on there")
        else:
            found.append(number)
    if not found:
        raise Refused(f"there is no cut to {what}")
    return found


def tried(project: Project, cuts: list[int], make: Callable[[int], None], keeps_going: bool) -> Iterator[int]:
    """Makes each cut, or leaves it as it was and prints why; yields the numbers of those that are made."""
    for number in cuts:
        try:
            make(number)
        except Refused as error:
            if not keeps_going:
                raise Refused(f"cut {number}: {error}; --keep-going leaves it as it is") from None
            print(f"{masters.script()}: cut {number}: {error}; it stays as it was", file=sys.stderr)
        else:
            yield number
    end_with_a_byte(project)


def end_with_a_byte(project: Project) -> None:
    """If the master was to be whole bytes long, it will be so again."""
    spare = project.end_with_a_byte() if project.was_whole else 0
    if spare:
        bits = "1 bit" if spare == 1 else f"{spare} bits"
        print(f"the last cue ends {bits} earlier, so that DSDIFF files hold the master")
