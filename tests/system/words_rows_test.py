"""Words after `osm_mirror` that name no job, and what is told of them on standard error."""

from runs import PROGRAM, TOP, Outcome, Tally, run

# Lines of words with one space between two, and how the text of clap begins that is told of them.
OF_CLAP = [
    ("", "error: 'osm_mirror' requires a subcommand but one was not provided\n"),
    ("ask", "error: the following required arguments were not provided:\n"),
    ("check 00 b c", "error: the following required arguments were not provided:\n"),
    ("ask a b", "error: unexpected argument 'b' found\n"),
    ("publish a b", "error: unexpected argument 'b' found\n"),
    ("ask -x", "error: unexpected argument '-x' found\n"),
    ("publish a --edition", "error: a value is required for '--edition <EDITION>' but none was supplied\n"),
    (
        "publish a --edition 1 --edition 2",
        "error: the argument '--edition <EDITION>' cannot be used multiple times\n",
    ),
    (
        "prove a b c d --sequence x",
        "error: invalid value 'x' for '--sequence <N>': invalid digit found in string\n",
    ),
    (
        "publish a --edition 2 --sequence 18446744073709551616",
        "error: invalid value '18446744073709551616' for '--sequence <N>': number too large to fit in target type\n",
    ),
    ("publish a --edition 2 --sequence -1", "error: unexpected argument '-1' found\n"),
    (
        "publish a --edition 2 --sequence=-1",
        "error: invalid value '-1' for '--sequence <N>': invalid digit found in string\n",
    ),
    ("serve a", "error: the following required arguments were not provided:\n"),
    ("serve a 65536", "error: invalid value '65536' for '<PORT>': 65536 is not in 0..=65535\n"),
    ("serve a http", "error: invalid value 'http' for '<PORT>': invalid digit found in string\n"),
    (
        "serve a 80 --connections 4294967296",
        "error: invalid value '4294967296' for '--connections <N>': 4294967296 is not in 0..=4294967295\n",
    ),
    (
        "check a b c d --max-size 1M",
        "error: invalid value '1M' for '--max-size <BYTES>': invalid digit found in string\n",
    ),
    (
        "check a b c d --max-size=-1",
        "error: invalid value '-1' for '--max-size <BYTES>': invalid digit found in string\n",
    ),
    (
        "check a b c d --max-size 18446744073709551616",
        "error: invalid value '18446744073709551616' for '--max-size <BYTES>': number too large to fit in target type\n",
    ),
    ("check a b c d --max-size", "error: a value is required for '--max-size <BYTES>' but none was supplied\n"),
    (
        "check a b c d --max-size 1 --max-size 2",
        "error: the argument '--max-size <BYTES>' cannot be used multiple times\n",
    ),
    ("prove a b c d --max-size 1", "error: unexpected argument '--max-size' found\n"),
    ("prove a b c d --max-work 1", "error: unexpected argument '--max-work' found\n"),
    (
        "check a b c d --max-work 18446744073709551616",
        "error: invalid value '18446744073709551616' for '--max-work <N>': number too large to fit in target type\n",
    ),
    (
        "serve a 80 --max-work=-1",
        "error: invalid value '-1' for '--max-work <N>': invalid digit found in string\n",
    ),
    ("fetch a b c --max-work", "error: a value is required for '--max-work <N>' but none was supplied\n"),
    (
        "relay a b 80 --max-work 1 --max-work 2",
        "error: the argument '--max-work <N>' cannot be used multiple times\n",
    ),
    ("ask a --form", "error: a value is required for '--form <FORM>' but none was supplied\n"),
    (
        "ask a --form opl --form json",
        "error: the argument '--form <FORM>' cannot be used multiple times\n",
    ),
    ("ask a --max-size 1", "error: unexpected argument '--max-size' found\n"),
    ("fetch a b", "error: the following required arguments were not provided:\n"),
    ("fetch a b c d", "error: unexpected argument 'd' found\n"),
    ("fetch a b -x", "error: unexpected argument '-x' found\n"),
    (
        "fetch a b c --max-size=-1",
        "error: invalid value '-1' for '--max-size <BYTES>': invalid digit found in string\n",
    ),
    ("fetch a b c --edition 1", "error: unexpected argument '--edition' found\n"),
    ("relay a b", "error: the following required arguments were not provided:\n"),
    ("relay a b 65536", "error: invalid value '65536' for '<LISTENPORT>': 65536 is not in 0..=65535\n"),
    ("relay a b http", "error: invalid value 'http' for '<LISTENPORT>': invalid digit found in string\n"),
    (
        "relay a b 80 --connections 4294967296",
        "error: invalid value '4294967296' for '--connections <N>': 4294967296 is not in 0..=4294967295\n",
    ),
    (
        "relay a b 80 --fallback c:1 --fallback",
        "error: a value is required for '--fallback <HOST:PORT>' but none was supplied\n",
    ),
    (
        "relay a b 80 --root-file c --root-file d",
        "error: the argument '--root-file <FILE>' cannot be used multiple times\n",
    ),
    ("relay a b 80 --form json", "error: unexpected argument '--form' found\n"),
    ("changes a 7", "error: the following required arguments were not provided:\n"),
    ("changes a x b", "error: invalid value 'x' for '<SEQUENCE>': invalid digit found in string\n"),
    (
        "changes a 18446744073709551616 b",
        "error: invalid value '18446744073709551616' for '<SEQUENCE>': number too large to fit in target type\n",
    ),
    ("changes a 7 b --edition 2", "error: unexpected argument '--edition' found\n"),
    (
        "serve a 80 --strict-changes --strict-changes",
        "error: the argument '--strict-changes' cannot be used multiple times\n",
    ),
    (
        "serve a 80 --strict-changes=yes",
        "error: unexpected value 'yes' for '--strict-changes' found; no more were expected\n",
    ),
    (
        "fetch a b c --max-size x",
        "error: invalid value 'x' for '--max-size <BYTES>': invalid digit found in string\n",
    ),
    (
        "fetch a b c --max-work 18446744073709551616",
        "error: invalid value '18446744073709551616' for '--max-work <N>': number too large to fit in target type\n",
    ),
    (
        "serve a 80 --max-work=1e9",
        "error: invalid value '1e9' for '--max-work <N>': invalid digit found in string\n",
    ),
    ("ask a --form opl --form opl", "error: the argument '--form <FORM>' cannot be used multiple times\n"),
    ("pack a", "error: the following required arguments were not provided:\n"),
    ("pack a b c", "error: unexpected argument 'c' found\n"),
    (
        "pack a b --sequence x",
        "error: invalid value 'x' for '--sequence <N>': invalid digit found in string\n",
    ),
    ("query a b", "error: the following required arguments were not provided:\n"),
    ("query a b c --max-size 1", "error: unexpected argument '--max-size' found\n"),
    (
        "query a b c --max-bytes 18446744073709551616",
        "error: invalid value '18446744073709551616' for '--max-bytes <BYTES>': number too large to fit in target type\n",
    ),
    (
        "relay a b 80 --fallback",
        "error: a value is required for '--fallback <HOST:PORT>' but none was supplied\n",
    ),
    (
        "serve a 80 --strict-changes=true",
        "error: unexpected value 'true' for '--strict-changes' found; no more were expected\n",
    ),
    ("answer node(1);out;", "error: unrecognized subcommand 'answer'\n"),
    ("help", "error: unrecognized subcommand 'help'\n"),
    (
        "--help",
        "Answers OpenStreetMap queries, and proves and checks the answers\n"
        "\n"
        "Usage: osm_mirror <COMMAND>\n"
        "\n"
        "Commands:\n"
        "  ask      Answers a query over the OPL text on standard input, after checking the answer\n"
        "  publish  Prints the root of a set, by which clients check answers\n"
        "  changes  Applies a change file to a set, prints the new root and adds it to the end of the change file\n"
        "  prove    Writes the answer to a query and its proof, and prints the root of the set\n"
        "  check    Checks an answer by its proof and a root: prints 'yes', or 'no' and why\n"
        "  fetch    Asks a mirror, checks its proof on this machine and prints the answer\n"
        "  pack     Writes a set's pack, a file from which clients answer queries by themselves, and prints the root\n"
        "  query    Finds the answer in a pack, trusting nothing in it, and prints it\n"
        "  serve    Answers queries over HTTP, with proofs, on 127.0.0.1\n"
        "  relay    Answers programs on this machine as an Overpass server does, with what a mirror has proved\n"
        "  explain  Prints what a code means, where it is told and what to do about it\n",
    ),
    (
        "ask -h",
        "Answers a query over the OPL text on standard input, after checking the answer\n"
        "\n"
        "Usage: osm_mirror ask [OPTIONS] <QUERY>\n"
        "\n"
        "Arguments:\n"
        "  <QUERY>  The query, as 'node(1);out;'; after '--' where it begins with '-'\n"
        "\n"
        "Options:\n"
        "      --form <FORM>  Form of the answer: opl, json or xml; opl if it isn't given\n"
        "  -h, --help         Print help\n",
    ),
    (
        "publish -h",
        "Prints the root of a set, by which clients check answers\n"
        "\n"
        "Usage: osm_mirror publish [OPTIONS] <FILE>\n"
        "\n"
        "Arguments:\n"
        "  <FILE>  OPL file with the objects of the set\n"
        "\n"
        "Options:\n"
        "      --edition <EDITION>  Edition of the root: 1, or 2 with a sequence number; 2 if it isn't given\n"
        "      --sequence <N>       Sequence number of an edition 2 root, 0 if it isn't given; has no effect with '--edition 1'\n"
        "  -h, --help               Print help\n",
    ),
    (
        "prove -h",
        "Writes the answer to a query and its proof, and prints the root of the set\n"
        "\n"
        "Usage: osm_mirror prove [OPTIONS] <FILE> <QUERYFILE> <ANSWERFILE> <PROOFFILE>\n"
        "\n"
        "Arguments:\n"
        "  <FILE>        OPL file with the objects of the set\n"
        "  <QUERYFILE>   File whose bytes are the query\n"
        "  <ANSWERFILE>  File that the answer is written to\n"
        "  <PROOFFILE>   File that the proof is written to\n"
        "\n"
        "Options:\n"
        "      --edition <EDITION>  Edition of the root: 1, or 2 with a sequence number; 2 if it isn't given\n"
        "      --sequence <N>       Sequence number of an edition 2 root, 0 if it isn't given; has no effect with '--edition 1'\n"
        "  -h, --help               Print help\n",
    ),
    (
        "serve -h",
        "Answers queries over HTTP, with proofs, on 127.0.0.1\n"
        "\n"
        "Usage: osm_mirror serve [OPTIONS] <FILE> <PORT>\n"
        "\n"
        "Arguments:\n"
        "  <FILE>  OPL file with the objects of the set\n"
        "  <PORT>  Port to listen on; 0 takes any that is free\n"
        "\n"
        "Options:\n"
        "      --connections <N>    Number of connections to serve; 4294967295 if it isn't given\n"
        "      --max-work <N>       Most work for a query: 1 for a byte of the answer, 100 for a step; no limit if it isn't given\n"
        "      --changes <DIR>      Folder of change files: DIR/<sequence + 1>.opl is applied as soon as it is there\n"
        "      --strict-changes     Refuse change files that don't tell which root they give\n"
        "      --edition <EDITION>  Edition of the root: 1, or 2 with a sequence number; 2 if it isn't given\n"
        "      --sequence <N>       Sequence number of an edition 2 root, 0 if it isn't given; has no effect with '--edition 1'\n"
        "  -h, --help               Print help\n",
    ),
    (
        "check -h",
        "Checks an answer by its proof and a root: prints 'yes', or 'no' and why\n"
        "\n"
        "Usage: osm_mirror check [OPTIONS] <ROOT> <QUERYFILE> <ANSWERFILE> <PROOFFILE>\n"
        "\n"
        "Arguments:\n"
        "  <ROOT>        Root of the set: 64 hexadecimal digits, from the publisher\n"
        "  <QUERYFILE>   File whose bytes are the query\n"
        "  <ANSWERFILE>  File whose bytes are the answer\n"
        "  <PROOFFILE>   File whose bytes are the proof\n"
        "\n"
        "Options:\n"
        "      --max-size <BYTES>  Most bytes of the answer, and of the proof; no limit if it isn't given\n"
        "      --max-work <N>      Most work for a query: 1 for a byte of the answer, 100 for a step; no limit if it isn't given\n"
        "  -h, --help              Print help\n",
    ),
    (
        "changes -h",
        "Applies a change file to a set, prints the new root and adds it to the end of the change file\n"
        "\n"
        "Usage: osm_mirror changes <FILE> <SEQUENCE> <CHANGEFILE>\n"
        "\n"
        "Arguments:\n"
        "  <FILE>        OPL file with the objects of the set\n"
        "  <SEQUENCE>    Sequence number of the set before the changes; its edition is 2\n"
        "  <CHANGEFILE>  OPL file with the changes, to which a line with the new root is added\n",
    ),
    (
        "fetch -h",
        "Asks a mirror, checks its proof on this machine and prints the answer\n"
        "\n"
        "Usage: osm_mirror fetch [OPTIONS] <ROOT> <HOST:PORT> <QUERY>\n"
        "\n"
        "Arguments:\n"
        "  <ROOT>       Root of the set: 64 hexadecimal digits, from the publisher\n"
        "  <HOST:PORT>  Mirror to ask, as 'mirror.example:8080'\n"
        "  <QUERY>      The query, as 'node(1);out;'; after '--' where it begins with '-'\n"
        "\n"
        "Options:\n"
        "      --form <FORM>       Form of the answer: opl, json or xml; opl if it isn't given\n"
        "      --max-size <BYTES>  Most bytes of the answer, and of the proof; no limit if it isn't given\n"
        "      --max-work <N>      Most work for a query: 1 for a byte of the answer, 100 for a step; no limit if it isn't given\n"
        "  -h, --help              Print help\n",
    ),
    (
        "relay -h",
        "Answers programs on this machine as an Overpass server does, with what a mirror has proved\n"
        "\n"
        "Usage: osm_mirror relay [OPTIONS] <ROOT> <HOST:PORT> <LISTENPORT>\n"
        "\n"
        "Arguments:\n"
        "  <ROOT>        Root of the set: 64 hexadecimal digits, from the publisher\n"
        "  <HOST:PORT>   Mirror to ask, as 'mirror.example:8080'\n"
        "  <LISTENPORT>  Port to listen on; 0 takes any that is free\n"
        "\n"
        "Options:\n"
        "      --fallback <HOST:PORT>  Another mirror, asked where those before it fail; may be given several times\n"
        "      --root-file <FILE>      File with the root that is in force; ROOT if it isn't given\n"
        "      --connections <N>       Number of connections to serve; 4294967295 if it isn't given\n"
        "      --max-work <N>          Most work for a query: 1 for a byte of the answer, 100 for a step; no limit if it isn't given\n"
        "  -h, --help                  Print help\n",
    ),
]

# Lines that ask for nothing though clap takes them, and the only line that is told. Of two faults the one of ROOT is.
REFUSED = [
    ("ask q --form geojson", b"bad form\n"),
    ("fetch 00 h:1 q --form json", b"bad root\n"),
    ("fetch 00 h:1 q --form yaml", b"bad root\n"),
    ("fetch --form= -- -x h:1 q", b"bad root\n"),
    ("relay x h:1 80 --fallback b:1", b"bad root\n"),
    ("query 00 p q", b"bad root\n"),
    ("query 00 p q --form yaml", b"bad root\n"),
    ("pack a b --edition 3", b"bad edition\n"),
    ("pack a b --edition= --sequence 7", b"bad edition\n"),
    ("serve a 80 --edition 1 --changes b --strict-changes", b"bad edition\n"),
    ("serve a 80 --edition 3 --strict-changes", b"bad edition\n"),
]

# The digest of the empty message, in hexadecimal digits of both cases.
ROOT = "e3b0c44298fc1c149afbf4c8996fb92427AE41E4649B934CA495991B7852B855"


def ended(line):
    """How the program ends with these words, and with nothing on standard input."""
    return run([PROGRAM, *line.split(" ")] if line else [PROGRAM])


def check_told(tally, line, told):
    outcome = ended(line)
    tally.check(f"osm_mirror {line}", outcome == Outcome(b"", told, 2), outcome)


def check_clap(tally, line, begins):
    """Clap's text begins so, and is whole lines."""
    outcome = ended(line)
    told = outcome.stderr.decode()
    holds = outcome.stdout == b"" and outcome.status == 2 and told.startswith(begins) and told.endswith("\n")
    tally.check(f"osm_mirror {line}", holds, outcome)


def version_line():
    """What the program says of its version: the newest one of the changelog, the edition that commands take unless told
    otherwise, and the sum of the toolchain's logic."""
    version = run([TOP / "packaging/version"]).stdout.decode().strip()
    logic = run(["rt", "version"]).stdout.decode().rpartition(" ")[2].strip()
    return f"osm_mirror {version} (edition 2, logic {logic})\n".encode()


def main():
    tally = Tally()
    for line, begins in OF_CLAP:
        check_clap(tally, line, begins)
    for line in ["--version", "-V"]:
        check_told(tally, line, version_line())
    for command in ["publish a.opl", "prove a.opl b c d", "serve a.opl 80"]:
        for word in ["3", "", "two", "0", "01", "+1", "12", "1.0"]:
            check_told(tally, f"{command} --edition {word}", b"bad edition\n")
    # A mirror takes changes in edition 2 alone.
    check_told(tally, "serve a.opl 80 --changes new --edition 1", b"bad edition\n")
    check_told(tally, "serve --edition=1 a.opl --changes= 80", b"bad edition\n")
    for word in ["", "OPL", "Json", "jsonx", "xm", "yaml", "1"]:
        check_told(tally, f"ask node(1);out; --form={word}", b"bad form\n")
        check_told(tally, f"fetch {ROOT} h:1 node(1);out; --form={word}", b"bad form\n")
    for line, told in REFUSED:
        check_told(tally, line, told)
    # ROOT is looked at before the form.
    check_told(tally, f"fetch {ROOT}0 h:1 node(1);out; --form yaml", b"bad root\n")
    for digits in [0, 1, 62, 63]:
        for end in ["", "g", "0x", "00a"]:
            check_told(tally, f"check {ROOT[:digits]}{end} b c d", b"bad root\n")
            check_told(tally, f"fetch {ROOT[:digits]}{end} h:1 node(1);out;", b"bad root\n")
            check_told(tally, f"relay {ROOT[:digits]}{end} h:1 8080", b"bad root\n")
    tally.end()


if __name__ == "__main__":
    main()
