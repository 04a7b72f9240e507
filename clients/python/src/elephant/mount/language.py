"""The commands of the script language, as `elephant help` explains them."""

from __future__ import annotations

# By the name of each command: its line, its answer, and what it does.
# Printed by tools/pages/surface --write: the commands, from ele_commands/src/command.rt and ele_help/src/paragraphs.rt.
COMMANDS: dict[str, tuple[str, str, str]] = {
    "ahead": (
        "ahead M", "ok ahead K, then K lines - RIPE FILE NUMBER in order",
        "Lists what 'due' would list at M if only the clock moves. It needs the option --explain. NotAhead if M is earlier than now.",
    ),
    "answers": (
        "answers", "ok answers F K, then K lines - LINE in order, each with its answer below",
        "Prints how many events were folded (F), how many are stored (K), and each stored one with its answer below its line. It needs "
        "the option --explain. It is never refused.",
    ),
    "abandon": (
        "abandon H", "ok done",
        "Ends a handle that writes. If it was the last one that writes the file, the draft is discarded and makes no version. NotWriter "
        "if the handle is one that reads: see 'close'.",
    ),
    "clock": (
        "clock M", "ok now S TEXT",
        "Sets the clock to M. Only 'clock' and 'tick' move it. ClockBack if M is earlier than now.",
    ),
    "close": (
        "close H", "ok closed, or ok closed version V",
        "Ends a handle. If it was the last one that writes the file and the draft was changed, the draft becomes the current version. "
        "NoHandle if no open handle has the number.",
    ),
    "clean": (
        "clean", "ok removed RIPE FILE NUMBER, or ok nothing",
        "Removes the first version that 'due' lists, and prints its row. Nothing but 'clean' and 'pass' removes versions. It is never "
        "refused.",
    ),
    "create": (
        "create P", "ok file F",
        "Makes a file with an empty version 1. Its policy is the default of its directory. Exists if the name is in use, NoEntry if the "
        "directory isn't there.",
    ),
    "changes": (
        "changes M U [P]", "ok changes K, then K lines - KIND TARGET V V PATH PATH in order",
        "Lists what changed between the moments M and U: each name that was made, is back, or was linked, renamed, deleted or unlinked, "
        "and each file with another version. The columns are the versions and the paths of M and of U; '-' is none. 'forgotten' is a file"
        " of which neither version is held. With P only what is at P or below. It needs the option --explain. Future if U is later than "
        "now, NotAhead if it is earlier than M.",
    ),
    "due": (
        "due", "ok due K, then K lines - RIPE FILE NUMBER in order",
        "Lists the versions that may be removed now: since when, the file, and the version. You can still read them. 'ahead M' lists "
        "those of a later moment, and needs the option --explain. It is never refused.",
    ),
    "default": (
        "default P POL", "ok done",
        "Sets the policy of files and directories that are made in P later. 'elephant help policies' explains POL. NotDirectory if P is a"
        " file.",
    ),
    "expiring": (
        "expiring M", "ok expiring K, then K lines - RIPE FILE NUMBER PATH UNTIL in order",
        "Lists what 'ahead M' lists, with the path of each file: the one that leads to it now or, if none does, the last one that did, "
        "and until when ('-' if it still leads there). 'expiring' of now is 'due' with paths. It needs the option --explain. NotAhead if "
        "M is earlier than now.",
    ),
    "group make": (
        "group make G", "ok done",
        "Makes an empty group. GroupExists if a group has the name.",
    ),
    "group drop": (
        "group drop G", "ok done",
        "Removes a group with its marks. The policies then decide at once. NoGroup if no group has the name.",
    ),
    "group add": (
        "group add G P", "ok done",
        "Adds the file at P to a group. Its marks protect the file too. AlreadyMember if the file is in it.",
    ),
    "group remove": (
        "group remove G P", "ok done",
        "Takes the file at P out of a group, whose marks don't protect it any more. NotMember if it isn't in it.",
    ),
    "groups": (
        "groups", "ok groups K, then K lines - G members F,F marks M,M in order of making",
        "Lists the groups with the numbers of their files and the moments of their marks. It is never refused.",
    ),
    "gone": (
        "gone", "ok gone F K, then K lines - MOMENT FILE NUMBER PATH FATE in order",
        "Lists the versions that the stored events removed: when, the file, the version, the path that the file had then, and why it was "
        "due. 'held G M' before the fate is the mark that held it longer than its policy. No version is removed while a mark covers it "
        "that has not ended. It needs the option --explain. It is never refused.",
    ),
    "history": (
        "history", "ok history F K, then K lines - LINE in order",
        "Prints how many events were folded (F), how many are stored (K), and the line of each stored one. If F is 0, the lines are a "
        "script that rebuilds the store. It is never refused.",
    ),
    "handles": (
        "handles", "ok handles K, then K lines - HANDLE FILE VERSION SINCE PATH by handle",
        "Lists the open handles: the handle, the file, the version that it reads or 'draft', since when, and the path. The draft counts "
        "from its first writer. It needs the option --explain. It is never refused.",
    ),
    "link": (
        "link P Q", "ok done",
        "Gives the file at P the name Q too. All names of a file are equal. Exists if Q is in use, IsDirectory if P is a directory.",
    ),
    "list": (
        "list A", "ok names K, then K lines - NAME file F or - NAME directory D by the bytes of the names",
        "Lists the names in a directory, now or at the moment of /path@M. NotDirectory if A is a file, Future if the moment is later than"
        " now.",
    ),
    "mark": (
        "mark G M [U]", "ok done",
        "Protects the version of each file in the group that was current at M, for good or until U. M must be earlier than now (NotPast),"
        " and U later (NotAhead). MarkExists if the group has a mark for M.",
    ),
    "mkdir": (
        "mkdir P", "ok directory D",
        "Makes a directory. Its default is that of the directory that it is in. Exists if the name is in use.",
    ),
    "note": (
        "note X", "ok done",
        "Puts the bytes X, at most 200, into the history: who makes the next changes, say, and why. It changes nothing else, and "
        "'history' and 'answers' print it. X is two hexadecimal digits for each byte: 6f7073 is ops. TooBig if it is longer.",
    ),
    "open write": (
        "open write P", "ok handle H",
        "Opens a handle that writes the file's draft, which all writers share. Handles are numbered from 1 over all files. 'close' saves "
        "the draft. IsDirectory if P is a directory.",
    ),
    "open read": (
        "open read T", "ok handle H",
        "Opens a handle on the version that T means now. It isn't removed until its last handle is closed. Forgotten if the version was "
        "removed.",
    ),
    "pass": (
        "pass N", "ok pass finished R, ok pass budget R, or stop NUMBER Name removed R",
        "Repeats 'clean' until nothing is due (finished) or N versions are removed (budget). It is never refused.",
    ),
    "policy": (
        "policy P POL", "ok done",
        "Gives a file another policy, which decides at once about all held versions. 'elephant help policies' explains POL. IsDirectory "
        "if P is a directory: see 'default'.",
    ),
    "read": (
        "read T|H", "ok bytes LENGTH X",
        "Prints the length and the bytes of a version, now (/f), at a moment (/f@M) or by its number (/f#V), or what a handle reads. If "
        "several versions closed in one second, /f@M means the last of them; the others have numbers. Forgotten N if the version was "
        "removed.",
    ),
    "rename": (
        "rename P Q", "ok done",
        "Moves a file or a directory, with all that is in it. It never replaces what is at Q: that is Exists.",
    ),
    "revert": (
        "revert P V", "ok version V",
        "Makes a version with the content of version V of the file at P. Drafting if a handle writes the file, Forgotten if V was "
        "removed.",
    ),
    "restore": (
        "restore P M", "ok version V",
        "Makes what P held at M its newest version. If P named nothing then, it is what the file at P held under another name. A deleted "
        "name comes back. Drafting if a handle writes the file, Forgotten if that version was removed.",
    ),
    "rmdir": (
        "rmdir P", "ok done",
        "Deletes the name of a directory. NotEmpty if something in it has a name.",
    ),
    "restorable": (
        "restorable", "ok restorable K, then K lines - DIR NAME file F or - DIR NAME directory D in order",
        "Lists the deleted names that 'undelete' can restore. It is never refused.",
    ),
    "removals": (
        "removals", "ok removals F K, then K lines - MOMENT FILE NUMBER PATH UNTIL FATE in order",
        "Lists the versions that the stored events removed, as 'gone' does, with the last path of the file: the one that led to it just "
        "before, or the last one that did, and until when ('-' if it still led there). It needs the option --explain. It is never "
        "refused.",
    ),
    "save": (
        "save P X", "ok version V",
        "Makes a version of the file at P with the bytes X, without a handle. If P names nothing, it makes the file, with an empty "
        "version 1 before this one. Drafting if a handle writes the file, IsDirectory if P is a directory.",
    ),
    "stat": (
        "stat T", "ok file F version N opened O closed C ended E length L policy POL, or ok directory D default POL",
        "Prints when a version's draft was opened, when it closed and when it ended (- for the current one), and the policy of its file; "
        "of a directory, the number and the default.",
    ),
    "story": (
        "story P", "ok story F K, then K lines - version N C E L FATE by number, and - name FROM TO PATH in order",
        "Tells what is known of the file at P or, if P names none, of the file that P named last: a line for each version, and one for "
        "each name, live or deleted. Before its fate a removed version has 'removed MOMENT', and one that a mark held longer than its "
        "policy 'held G M'. It needs the option --explain. NoEntry if P never named a file.",
    ),
    "tick": (
        "tick N", "ok now S TEXT",
        "Moves the clock by N seconds. 'tick 0' prints the time. ClockEnd if that is later than the year 9999.",
    ),
    "truncate": (
        "truncate H N", "ok done",
        "Cuts the draft of a handle to N bytes, or fills it with zeros. To save a whole new content that is too long for one line of "
        "'save', send 'truncate H 0' and then the writes. NotWriter if the handle is one that reads.",
    ),
    "trim": (
        "trim", "ok trimmed K",
        "Folds the stored events of the history, which frees their memory. Later answers stay the same. K says how many events an audit "
        "loses: 'history' and 'answers' no longer have them. It is never refused.",
    ),
    "unlink": (
        "unlink P", "ok done",
        "Deletes a name of a file. With the last name its current version ends. 'undelete' restores the name. IsDirectory if P is a "
        "directory: see 'rmdir'.",
    ),
    "undelete": (
        "undelete P", "ok version V, or ok done",
        "Restores the last thing that had the name P. A file without any name also gets a version with its last content. NotRestorable if"
        " nothing can be restored, Exists if the name is in use.",
    ),
    "unmark": (
        "unmark G M", "ok done",
        "Removes the mark of a group for the moment M. The policies then decide at once. NoMark if there is none.",
    ),
    "usage": (
        "usage", "ok usage 4, then - one FILES VERSIONS BYTES BLOCKS, and the same for all, safe and landmarks",
        "Prints, for each kind of policy, how many files have it, how many versions of these are held, and how many bytes and blocks they"
        " have. It is never refused.",
    ),
    "versions": (
        "versions A", "ok versions K, then K lines - N O C E L by number",
        "Lists the held versions of a file: number, opened, closed, ended or -, and length. With /path@M it is the file that had the name"
        " then.",
    ),
    "write": (
        "write H N X", "ok done",
        "Overwrites the draft of a handle from offset N by the bytes X, two hexadecimal digits for each: 6869 is hi. In a shell, printf "
        "'hi' | xxd -p prints the digits, and printf 6869 | xxd -r -p the text. A gap is filled with zeros. NotWriter if the handle is "
        "one that reads, TooBig above 1,048,576 bytes.",
    ),
    "why": (
        "why T", "ok why FATE, or ok why removed MOMENT FATE",
        "Prints why a version stays, since when it may be removed, or why it was. 'held G M' before the fate is the mark that held it "
        "longer than its policy. It needs the option --explain. It is refused as 'read' is.",
    ),
}
# End of the commands.
