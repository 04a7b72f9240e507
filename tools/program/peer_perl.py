"""sanoid's and btrbk's own functions that choose snapshots, run by perl over lists of snapshots."""

import json
import re
import subprocess
from collections.abc import Sequence
from pathlib import Path

from program.peers import WEEKDAYS, Part, Row, Schedule

SANOID = r"""
use strict; use warnings; use JSON::PP;
our ($now, %args, %config, %snaps, %snapsbytype, %pruned, $zfs);
BEGIN { *CORE::GLOBAL::time = sub { $main::now } }
%args = (verbose => 1, readonly => 1, 'force-prune' => 1);
sub get_date { return () }
sub check_prune_defer { return 0 }
sub checklock { return 1 }
sub writelock {}
sub removelock {}
sub removecachedsnapshots {}
sub iszfsbusy { return 0 }
sub runscript { return 0 }
FUNCTIONS
while (my $line = <STDIN>) {
    my $case = decode_json($line);
    $now = $case->{now};
    %snaps = (); %pruned = ();
    %config = (p => { path => 'p', autoprune => 1, frequent_period => 15, %{$case->{counts}} });
    foreach my $row (@{$case->{rows}}) {
        $_ = "p\@$row->[1]\tcreation\t$row->[0]";
        my ($fs,$snapname,$snapdate) = ($_ =~ m/(.*)\@(.*ly)\t*creation\t*(\d*)/);
        next unless defined $snapname;
        my ($snaptype) = ($snapname =~ m/.*_(\w*ly)/);
        if ($snapname =~ /^autosnap/ && defined $snaptype) { $snaps{$fs}{$snapname} = { ctime => $snapdate, type => $snaptype } }
    }
    %snapsbytype = getsnapsbytype(\%config, \%snaps);
    prune_snapshots(\%config, \%snaps, \%snapsbytype, {});
    print "END\n";
}
"""
BTRBK = """
use strict; use warnings; use JSON::PP; use POSIX qw(tzset); use Time::Local qw(timegm_nocheck);
my %day_of_week_map = ( sunday => 0, monday => 1, tuesday => 2, wednesday => 3, thursday => 4, friday => 5, saturday => 6 );
our (@tm_now, $do_trace);
sub DEBUG {}
sub TRACE {}
sub timestamp { return '' }
FUNCTIONS
while (my $line = <STDIN>) {
    my $case = decode_json($line);
    $ENV{TZ} = $case->{zone}; tzset();
    @tm_now = localtime($case->{now});
    my @rows = map { +{ btrbk_date => [ $_, 0, 1 ] } } @{$case->{rows}};
    schedule(schedule => \\@rows, preserve => $case->{preserve});
    print encode_json([ map { $_->{preserve} } @rows ]), "\\n";
}
"""
KINDS = ["frequently", "hourly", "daily", "weekly", "monthly", "yearly"]


def function_of(source: str, name: str) -> str:
    """Returns the text of a function of a perl program, which ends at the first brace that begins a line."""
    found = re.search(rf"^sub {name}\b.*?^}}", source, re.S | re.M)
    if found is None:
        raise SystemExit(f"no function {name}")
    return found[0]


def sanoid_removes(program: Path, cases: Sequence[tuple[Sequence[Part], int, Sequence[Row]]]) -> list[list[bool]]:
    """Returns which rows of each case sanoid's own function removes."""
    source = program.read_text()
    text = SANOID.replace("FUNCTIONS", function_of(source, "getsnapsbytype") + "\n" + function_of(source, "prune_snapshots"))
    lines = []
    for parts, now, rows in cases:
        counts = {**dict.fromkeys(KINDS, 0), **{it.option: it.number or 0 for it in parts}}
        snapshots = [(row.moment, row.label.removeprefix("pool/data@")) for row in rows]
        lines.append(json.dumps({"now": now, "counts": counts, "rows": snapshots}))
    told = subprocess.run(["perl", "-e", text], input="".join(f"{it}\n" for it in lines), capture_output=True, encoding="utf-8", check=True)
    removed: set[str] = set()
    all_removed = []
    for line in told.stdout.splitlines():
        if line == "END":
            all_removed.append(removed)
            removed = set()
        elif found := re.fullmatch(r"INFO: pruning p@(.*) \.\.\. ", line):
            removed.add(found[1])
    return [[row.label.removeprefix("pool/data@") in gone for row in rows] for gone, (_, _, rows) in zip(all_removed, cases)]


def btrbk_reasons(program: Path, cases: Sequence[tuple[Schedule, str, int, Sequence[Row]]]) -> list[list[str | None]]:
    """Returns why btrbk's own function keeps each row of each case, in its words."""
    source = program.read_text()
    names = ["cmp_date", "schedule", "_format_preserve_delta", "format_preserve_matrix"]
    text = BTRBK.replace("FUNCTIONS", "\n".join(function_of(source, it) for it in names))
    lines = []
    for rule, zone, now, rows in cases:
        counts = {letter: "all" if number < 0 else number for letter, number in rule.counts.items()}
        least = {"min_q": rule.least} if rule.least in ("all", "latest") else {"min_n": rule.least[:-1], "min_q": rule.least[-1:]}
        preserve = {"dow": WEEKDAYS[rule.weekday], "hod": rule.hour, **counts, **(least if rule.least else {})}
        lines.append(json.dumps({"zone": zone, "now": now, "preserve": preserve, "rows": [row.moment for row in rows]}))
    told = subprocess.run(["perl", "-e", text], input="".join(f"{it}\n" for it in lines), capture_output=True, encoding="utf-8", check=True)
    return [json.loads(line) for line in told.stdout.splitlines()]
