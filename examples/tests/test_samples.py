"""The samples of the viewer's start page."""
from program import ROOT, run


def test_each_is_the_transcript_of_its_file():
    files = sorted((ROOT / "viewer/samples").glob("*.jsonl"))
    assert [it.stem for it in files] == ["duel", "eight", "wrapped"]
    for file in files:
        status, transcript, errors = run("serve", str(file))
        assert (status, errors) == (0, "")
        script = file.with_suffix(".js").read_text()
        assert script.endswith(f"\nSAMPLES.{file.stem} = `{transcript}`;\n"), file
