#!/usr/bin/env python3
"""Tries wrong rows of the protocol's definitions against the laws over every schedule.

Each wrong row is put into a copy of the repository, whose worked schedules are taken out so that they don't refuse it
first; then the laws are checked there. What is printed is the row, and the first declarations that are refused. All rows are put
into one copy, one after the other, so that of each only what it changes is proved anew.

Some rows keep one copy: over these the laws of `vp_laws` are proved, by a line of their proofs that is as wrong as the row, and what refuses
them is a law that no schedule is stuck, of `vp_progress`.

    bench/wrong_rows.py [WORD..]      only the rows whose name has one of the words
"""
import pathlib
import re
import shutil
import subprocess
import sys
import tempfile

TOP = pathlib.Path(__file__).resolve().parent.parent
SPECS = "crates/vp_model/specs/"
AS_THEY_ARE = ["vp_text", "vp_base"]
CRATES = [*AS_THEY_ARE, "vp_model", "vp_catalog", "vp_laws", "vp_progress"]

# name, file, the line as it stands, the wrong line
ROWS = [
    ("no wrong row", "OneCopy.antt", "order journal = ", "order journal = "),
    ("a refresh request is answered in doubt", "Messages.antt",
     "if holds_view o.site view && not (is_doubtful o.site rec)", "if holds_view o.site view"),
    ("a refresh takes the last answer, not the newest", "Refresh.antt",
     "newer best next = if view_before best.date next.date then next else best", "newer best next = next"),
    ("a site serves and votes in a view that it has left", "Messages.antt",
     "holds_view site id = is_view (held_id site) id", "holds_view site id = true"),
    ("a site joins on a repeated view commit", "Messages.antt",
     "if is_view o.site.waiting id && has members o.site.id", "if has members o.site.id"),
    ("exactly half of the weight is enough", "Catalogue.antt",
     "accessible catalogue rec members = nat_lt (total catalogue rec) (2 * inside catalogue rec members)",
     "accessible catalogue rec members = not (nat_lt (2 * inside catalogue rec members) (total catalogue rec))"),
    ("one vote commits", "Answers.antt",
     "(call.Commit txn number) l = count_in from t p (decide catalogue id t) l",
     "(call.Commit txn number) l = decide catalogue id t l"),
    ("the order of the journal alone", "OneCopy.antt",
     "order journal = flat_map (in_view journal) (views_of journal)", "order journal = journal"),
    ("an inquiry about a live transaction is answered", "Answers.antt",
     "if (txn.site == id) && not (is_live txn l.live)", "if txn.site == id"),
    ("a refusal names an owner that has no lock", "Messages.antt",
     "send (message.Refuse txn number (obstacle.Held holder)) from o",
     "send (message.Refuse txn number (obstacle.Held (owner.Txn txn))) from o"),
    ("a read is refused the lock that other reads share", "Locks.antt",
     "conflict rec exclusive txn locks = least_owner (conflicting rec exclusive (owner.Txn txn) locks)",
     "conflict rec exclusive txn locks = least_owner (conflicting rec true (owner.Txn txn) locks)"),
    ("a commit is left out of the journal", "World.antt",
     "journal = w.journal ++ o.effects.commits;", "journal = w.journal;"),
    ("a read or a write of a copy here takes no lock", "Calls.antt",
     "(l |> take_lock t.txn rec exclusive |> next)", "(l |> next)"),
    ("a crash frees the records in doubt", "Step.antt", "locks = flat_map locks_in_doubt d.doubts;", "locks = [];"),
    ("a decision is forgotten at the first acknowledgement", "Durable.antt",
     "record d { waiting = filter (λ q. not (q == site)) d.waiting }", "record d { waiting = [] }"),
    ("a vote is sent and not forced to the log", "Messages.antt",
     "    |> force (log_record.Yes part.txn part.view writes)\n", ""),
]
# the lines of proofs of vp_laws over a tick that doesn't send decisions again
NOT_SENT_AGAIN = [
    ("Moves/Rows.antt", "inquire-kept c (resend_decisions ticked) (resend-kept c ticked.site.decisions ticked (λ d q. q) (tick_view-kept c))", "inquire-kept c ticked (tick_view-kept c)"),
    ("Moves/FrontSteps.antt", "ticked-seen o = shut (resend-seen o.site.id o.site.decisions o).same", "ticked-seen o = shut refl"),
    ("Table/Covered.antt", "Ends o = P (inquire (known o.site.participant) (put_back o (resend o.site.id o.site.decisions (lent o))))", "Ends o = P (inquire (known o.site.participant) o)"),
    ("Table/Covered.antt", "ends_with o p = same (put_back o (resend o.site.id o.site.decisions (lent o))) _ refl (resends o.site.decisions o p)", "ends_with o p = same o _ refl p"),
]
# Rows that keep one copy, with the lines of proofs of vp_laws that go with them, and the second line of a pair: file, the line as it stands, the other line.
STUCK = [
    ("stuck: no wrong row", "OneCopy.antt", "order journal = ", "order journal = ", []),
    ("stuck: a tick doesn't inquire", "Step.antt",
     "effects = with_sent (map (inquiry o.site.id) txns) o.effects", "effects = with_sent [] o.effects",
     [("Moves/Rows.antt", "inquire-kept c o p = k.asks_again o _ asked p", "inquire-kept c o p = k.asks_again o [] (λ m g. absurd (has_none m g)) p"),
      ("Moves/Rows.antt", "Members.{Has, filter_has,", "Members.{Has, has_none, filter_has,")]),
    ("stuck: a tick doesn't ask for a copy again", "Step.antt",
     "ask_again catalogue view r o = send_all (message.RefreshRequest view r.rec) (unanswered catalogue o.site r) o", "ask_again catalogue view r o = o",
     [("Moves/Rows.antt", "ask_again-kept view r o e h v p = k.asks_again o _ asked p", "ask_again-kept view r o e h v p = p")]),
    ("stuck: a tick doesn't send a decision again", "Step.antt",
     "resend_decisions o = by_coordinator (λ at l. resend at.id l.decisions l) o", "resend_decisions o = o", NOT_SENT_AGAIN),
    ("stuck: a tick doesn't send a decision again, and an inquiry about a decided transaction isn't answered", "Step.antt",
     "resend_decisions o = by_coordinator (λ at l. resend at.id l.decisions l) o", "resend_decisions o = o",
     [*NOT_SENT_AGAIN, ("../../vp_model/specs/Answers.antt", "if (txn.site == id) && not (is_live txn l.live)",
                        "if (txn.site == id) && (not (is_live txn l.live) && not (is_decided txn l.decisions))")]),
    ("stuck: an inquiry without a decision isn't answered", "Answers.antt",
     "if (txn.site == id) && not (is_live txn l.live)", "if (txn.site == id) && (not (is_live txn l.live) && is_decided txn l.decisions)", []),
    ("stuck: an outcome ends no refresh", "Messages.antt",
     "settle_all catalogue (doubted_records doubt)", "settle_all catalogue []",
     [("Moves/Rows.antt", "settle_all-kept (doubted_records (doubt_of txn x.doubts)) _ (k.end_here", "settle_all-kept [] _ (k.end_here"),
      ("Moves/FrontSteps.antt", "settle_all-seen catalogue (doubted_records doubt)", "settle_all-seen catalogue []"),
      ("Table/CopiesForced.antt", "go (Some u) e = settles_all catalogue (log_record.Outcome txn commit) (doubted_records (Some u)) _ (ended_forced x from txn commit u)",
       "go (Some u) e = ended_forced x from txn commit u")]),
    ("stuck: a promise that is heard of isn't noted", "Messages.antt",
     "with_seen promise v = record v { seen = max v.seen promise.number }", "with_seen promise v = v", []),
    ("stuck: a site in doubt accepts no invitation", "Messages.antt",
     "if view_before o.site.promise id", "if view_before o.site.promise id && is_empty o.site.doubts", []),
    ("stuck: a doubt ends in its own view alone", "Messages.antt",
     "on_outcome catalogue from txn commit o = end_part catalogue from txn commit (doubt_of txn o.site.doubts) o",
     "on_outcome catalogue from txn commit o = if list_all (λ (d : Doubt). not (same_txn d.txn txn) || holds_view o.site d.view) o.site.doubts"
     " then end_part catalogue from txn commit (doubt_of txn o.site.doubts) o else o",
     [("Moves/Rows.antt", "on_outcome-kept from txn commit c = settle_all-kept (doubted_records (doubt_of txn x.doubts)) _ (k.end_here from txn commit c)",
       "on_outcome-kept from txn commit c = by_test P _ _ _ (λ e. settle_all-kept (doubted_records (doubt_of txn x.doubts)) _ (k.end_here from txn commit c)) (λ e. h)"),
      ("Moves/FrontSteps.antt", "    let doubt = doubt_of txn o.site.doubts in unseen_then", "    let doubt = doubt_of txn o.site.doubts in by_test (Unseen o) _ _ _ (λ e. unseen_then"),
      ("Moves/FrontSteps.antt", "(settle_all-seen catalogue (doubted_records doubt) (end_here from txn commit doubt o))",
       "(settle_all-seen catalogue (doubted_records doubt) (end_here from txn commit doubt o))) (λ e. nothing o)")]),
]
# that it says of each outcome that it is taken is what this law is for
NOT_OF_EACH_OUTCOME = "stuck: a doubt ends in its own view alone"
IMPORTS = {"Catalogue.antt": ("Prelude.{ℕ, ◌*◌, Bool, nat_lt,", "Prelude.{ℕ, ◌*◌, Bool, not, nat_lt,")}


def replaced(path, old, new):
    text = path.read_text()
    assert text.count(old) == 1, (path, old, text.count(old))
    path.write_text(text.replace(old, new))


def without_worked_schedules(copy):
    crate = copy / "crates/vp_model"
    (crate / "src/lib.rt").write_text((crate / "src/lib.rt").read_text().replace("pub mod worked;", ""))
    lib = crate / "proofs/Lib.antt"
    kept = [line for line in lib.read_text().splitlines() if any(it in line for it in ("RunGrows", "CountedSteps", "SameTxn", "PlayedInParts")) or not line.startswith("pub mod")]
    lib.write_text("\n".join(kept) + "\n")
    for name in ("worked", "Computed"):
        shutil.rmtree(crate / "proofs" / name)
    for name in ("Computed", "GeneratedRuns", "FinishedCalls", "FalseClaims"):
        (crate / f"proofs/{name}.antt").unlink()
    (crate / "src/worked.rt").unlink()
    shutil.rmtree(crate / "must-fail", ignore_errors=True)


def without_claim(claims, name):
    claims.write_text(re.sub(r"(///.*\n)+pub fn %s\(\)\n(    .*\n)+\{\}\n" % name, "", claims.read_text()))
    shutil.rmtree(claims.parent.parent / "proofs" / claims.stem / name)


def without_lines(path, words):
    """Takes out the lines in which the words are found."""
    path.write_text("".join(line + "\n" for line in path.read_text().splitlines() if not re.search(words, line)))


def without_shapes(copy):
    """Takes out the laws of well-formed sites, and that of routes over them, so that the crates of frames and log records need no proof first."""
    crate = copy / "crates/vp_laws"
    for path in [*crate.glob("specs/Shape*.antt"), crate / "specs/Routes.antt", crate / "src/shaped.rt"]:
        path.unlink()
    for name in ("Shapes", "Routes"):
        (crate / f"proofs/{name}.antt").unlink()
    for name in ("Shapes", "shaped", "Routes"):
        shutil.rmtree(crate / "proofs" / name)
    without_claim(crate / "src/claims.rt", "messages_go_between_sites")
    replaced(crate / "src/claims.rt", "ghost use Rattle.vp_laws.specs.Routes.{MessagesGoBetweenSites};\n", "")
    shutil.rmtree(crate / "must-fail", ignore_errors=True)
    for path in ("proofs/Lib.antt", "specs/Lib.antt", "src/lib.rt"):
        without_lines(crate / path, r"mod (Shape|Route|shaped)")
    # of the items of lists what doesn't speak of shapes, and of log records which copies they leave
    items = crate / "proofs/Lists/Items.antt"
    kept = items.read_text().split("\n  pub all_append")[0].splitlines()
    items.write_text("\n".join(line for line in kept if "specs.Shapes" not in line) + "\n")
    shutil.copy(TOP / "crates/vp_records/proofs/Held.antt", crate / "proofs/Lists")
    replaced(crate / "proofs/Lists.antt", "pub mod Items\n", "pub mod Items\npub mod Held\n")
    for name in ("Listed", "Locks"):
        replaced(crate / f"proofs/Table/{name}.antt", "Rattle.vp_records.proofs.Held", "Rattle.vp_laws.proofs.Lists.Held")
    crates = copy / "crates.txt"
    kept = [line for line in crates.read_text().splitlines() if line.split(":")[0] in CRATES]
    crates.write_text("\n".join(re.sub(" vp_(wire|records|contents|bytes)", "", line) for line in kept) + "\n")


def without_catalogues(copy):
    """Leaves of the crate of catalogues the law of majorities alone, and takes out the laws that are on more of it."""
    crate = copy / "crates/vp_catalog"
    kept = {"src": ["lib", "entry", "fault", "majority", "placed"], "proofs": ["Lib", "Majorities", "majority", "Onward", "placed"]}
    for part, names in kept.items():
        for path in (crate / part).iterdir():
            if path.stem not in names:
                shutil.rmtree(path) if path.is_dir() else path.unlink()
        lib = next((crate / part).glob("[lL]ib.*"))
        gone = re.compile(r"(pub )?(mod|use) (?!(%s)\b)" % "|".join(names))
        lib.write_text("".join(line + "\n" for line in lib.read_text().splitlines() if not gone.match(line)))
    shutil.rmtree(crate / "must-fail", ignore_errors=True)
    laws = copy / "crates/vp_laws"
    for name in ("sites_are_apart", "catalogues_are_whole"):
        without_claim(laws / "src/claims.rt", name)
    (laws / "proofs/Lists/Catalogues.antt").unlink()
    replaced(laws / "proofs/Lists.antt", "pub mod Catalogues\n", "")


def with_mending(copy):
    """Leaves of the laws that no schedule is stuck those of mending, which stand on no catalogue in the grammar."""
    crate = copy / "crates/vp_progress"
    for name in ("clients_are_served", "clients_can_be_served", "doubts_stay", "majorities_go_on", "sites_can_meet"):
        without_claim(crate / "src/laws.rt", name)
    without_lines(crate / "src/laws.rt", r"specs\.(Clients|NeverStuck|Doubts|Majority|Meeting|Together)\b")
    (crate / "src/worked.rt").unlink()
    (crate / "src/lib.rt").write_text("//! What can be mended.\n#![tactic(auto)]\n\npub mod laws;\n")
    shutil.rmtree(crate / "proofs/worked")
    shutil.rmtree(crate / "proofs/Serving")
    for part, names in (("specs", "Clients NeverStuck Doubts Together Meeting Majority Recovery Worked"), ("proofs", "Serving Returned Asked Doubts Passing Marks Marked Elsewhere Meetings Short Majority Exactly")):
        for name in names.split():
            (crate / part / f"{name}.antt").unlink()
        without_lines(crate / part / "Lib.antt", r"mod (%s)$" % names.replace(" ", "|"))
    replaced(crate / "proofs/Certain.antt", "Rattle.vp_records.proofs.Held", "Rattle.vp_laws.proofs.Lists.Held")
    shutil.rmtree(crate / "must-fail", ignore_errors=True)


def without_each_outcome(copy):
    """Takes out the law that says of each outcome that its site takes it."""
    crate = copy / "crates/vp_laws"
    without_claim(crate / "src/claims.rt", "decisions_agree")
    for folder, name in (("Words", "Decisions"), ("Table", "CopiesForced")):
        (crate / f"proofs/{folder}/{name}.antt").unlink()
        without_lines(crate / f"proofs/{folder}.antt", f"mod {name}$")


def left_out(folder, names):
    """What of the repository no copy needs."""
    if pathlib.Path(folder).name == "crates":
        return [name for name in names if name not in CRATES]
    return [name for name in names if name in (".git", "out")]


def prepare(right, copy):
    """Makes the right text of the copy that each row is put into, and gives it the libraries that are built and that no row changes."""
    shutil.copytree(TOP, right, ignore=left_out)
    for crate in AS_THEY_ARE:
        built = TOP / "crates" / crate / "out/rlib"
        if built.is_dir():
            shutil.copytree(built, copy / "crates" / crate / "out/rlib")
    without_worked_schedules(right)
    without_shapes(right)
    without_catalogues(right)
    with_mending(right)


def put_row(right, copy, name, file, old, new, proofs):
    """Makes the copy's text right, and then as wrong as the row; what was proved in it stays."""
    for path in right.rglob("*"):
        if path.name in ("src", "specs", "proofs") and path.parent.parent.name == "crates":
            shutil.rmtree(copy / path.relative_to(right), ignore_errors=True)
    shutil.copytree(right, copy, dirs_exist_ok=True)
    replaced(copy / SPECS / file, old, new)
    if file in IMPORTS and proofs is None:
        replaced(copy / SPECS / file, *IMPORTS[file])
    for line in proofs or []:
        replaced(copy / "crates/vp_laws/proofs" / line[0], *line[1:])
    if name == NOT_OF_EACH_OUTCOME:
        without_each_outcome(copy)


def refusals(copy, crate):
    done = subprocess.run(["rt", "check", crate, "--jobs", "1"], cwd=copy / "crates" / crate,
                          stdout=subprocess.PIPE, stderr=subprocess.STDOUT, text=True)
    lines = [line for line in done.stdout.splitlines() if re.search(r": error: (in )?`", line)]
    return lines or [done.stdout.splitlines()[-1]]


def main(words):
    rows = [(*row, None) for row in ROWS] + STUCK
    with tempfile.TemporaryDirectory() as folder:
        right, copy = pathlib.Path(folder, "right"), pathlib.Path(folder, "copy")
        prepare(right, copy)
        for name, *row, proofs in rows:
            if words and not any(word in name for word in words):
                continue
            put_row(right, copy, name, *row, proofs)
            print(name, flush=True)
            for line in refusals(copy, "vp_laws" if proofs is None else "vp_progress")[:4]:
                print("   ", line[:160], flush=True)


if __name__ == "__main__":
    main(sys.argv[1:])
