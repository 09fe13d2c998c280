"""What `--help` and `--version` print, which the man page and the launcher have too."""

import os
import re
import subprocess

from program import FOLDER, HERE, USAGE, expect, expect_end

ROOT = os.path.join(HERE, "..")


def plain(page):
    """Returns the words of a man page without its macros and fonts."""
    with open(page, encoding="ascii") as lines:
        text = " ".join(re.sub(r"^\.(TH|SH|TP|B|I|BI|BR|RI|IR|RB|IB|PP|br|nf|fi)\b", "", line).strip() for line in lines)
    return re.sub(r"\s+", " ", re.sub(r"\\f.|\"", "", text).replace("\\-", "-"))


def help_is_one_text():
    """The man page has each sentence on a mode and an option; the launcher prints the same before there is a program."""
    page = expect_end("--help", FOLDER, 2, USAGE).decode()
    version = expect_end("--version", FOLDER, 2, USAGE).decode()
    for words in ("-h", "replay --help", "--buckets --help"):
        expect(words, page, expect_end(words, FOLDER, 2, USAGE).decode())
    expect("-V", version, expect_end("-V", FOLDER, 2, USAGE).decode())
    expect("the version in the help", version.strip(), page.split(":")[0])
    manual = plain(os.path.join(ROOT, "hybridgc.1"))
    sentences = re.findall(r"^  (\S+(?: [A-Z]+)?) +(.+)$", page, re.M)
    sentences = [f"{head} {sentence}" for head, sentence in sentences if head not in ("printf", "hybridgc")]
    expect("the modes and options of the help", 10, len(sentences))
    for sentence in sentences:
        expect("hybridgc.1", sentence, sentence if sentence in manual else "another text")
    expect("the version in hybridgc.1", True, version.strip() in manual)
    code = ". scripts/program.sh; help_page"
    launcher = subprocess.run(["sh", "-c", f"root=$PWD; {code}"], cwd=ROOT, capture_output=True, text=True)
    expect("the help of the launcher", page, launcher.stdout)
