#!/usr/bin/env python3
"""Prints every state that a pair of cores can reach, and the step from each: of a strict terminal, or of a tolerant one.

Run it in this folder, and lay out what it wrote:
python3 pair_stages.py > PairStages.antt; python3 pair_stages.py tolerant > TolerantStages.antt; rt fmt
"""
import sys

TOLERANT = sys.argv[1:] == ["tolerant"]
KIND = "tolerant" if TOLERANT else "strict"


def terminal(device, responses, type_state, end_of_record, binary, phase, settled="false"):
    core = "(terminal_at %s %s %s %s %s %s)" % (device, responses, type_state, end_of_record, binary, phase)
    return "(tolerant_at %s %s)" % (core, settled) if TOLERANT else core


def sides(flags):
    return "(sides %s %s)" % flags


def listed(items):
    return "".join("%s ∷ " % item for item in items) + "[]"


def verb(code, option):
    return "told_verb %d %d" % (code, option)


def sub(option, words):
    return "told_sub %d (%s)" % (option, words)


class Stage:
    def __init__(self, name, args, rank, terminal, host, to_terminal=(), to_host=(), refused=("[]", "[]"), premise=None):
        self.name, self.args, self.rank = name, args, rank
        self.terminal, self.host = terminal, host
        self.to_terminal, self.to_host, self.refused = to_terminal, to_host, refused
        self.premise = premise

    def pattern(self, values=None):
        words = [self.name] + [(values or {}).get(a, a) for a in self.args] + (["other"] if self.premise else [])
        return words[0] if len(words) == 1 else "(%s)" % " ".join(words)


STAGES = []
STEPS = []


def stage(*words, **named):
    STAGES.append(Stage(*words, **named))
    return STAGES[-1]


def step(pattern, end, target, proof="refl"):
    STEPS.append((pattern, end, "(%s, %s, lit< tt)" % (target, proof)))


def enhanced():
    ab = ["asks", "grants"]
    t = lambda phase, r="asks": terminal("d", r, "Off", "neither", "neither", phase)
    h = lambda phase, r="grants": "(host_at g %s neither neither %s)" % (r, phase)
    stage("e0", ab, 8, t("Opening"), h("AskedEnhanced"), [verb(253, 40)])
    stage("e1", ab, 7, t("Enhanced"), h("AskedEnhanced"), [], [verb(251, 40)])
    stage("e2", ab, 6, t("Enhanced"), h("Device"), [sub(40, "8 ∷ 2 ∷ []")])
    stage("e3", ab, 5, t("Device"), h("Device"), [], [sub(40, "2 ∷ 7 ∷ name_of d")])
    stage("r4", ab, 2, t("Device"), h("Device"), [sub(40, "2 ∷ 6 ∷ 5 ∷ 4 ∷ []")])
    if TOLERANT:
        stage("r5", ab, 1, t("Classic"), h("Device"), [], [verb(252, 40)])
        stage("r6", ab, 0, t("Classic"), h("Device"), refused=("[]", "(OptionRefused 40 ∷ [])"))
        step("(r5 asks grants)", "at_host", "r6 asks grants")
    else:
        stage("r5", ab, 0, t("Device"), h("Device"), refused=("(Rejected 4 ∷ [])", "[]"))
    stage("e4", ab, 4, t("Device"), h("(Functions d None)"), [sub(40, "2 ∷ 4 ∷ (name_of d ++ 1 ∷ resource_name)")])
    stage("e5", ab, 3, t("(Asking asks)"), h("(Functions d None)"), [], [sub(40, "3 ∷ 7 ∷ function_list asks")])
    stage("e6", ab, 1, t("(Asking asks)"), h("(Ready d asks)"), [sub(40, "3 ∷ 4 ∷ function_list asks")])
    stage("e7", ab, 0, t("(Holding asks)"), h("(Ready d asks)"))
    stage("f6", [], 2, t("(Asking true)", "true"), h("(Functions d (Some false))", "false"), [sub(40, "3 ∷ 7 ∷ []")])
    stage("f7", [], 1, t("(Holding false)", "true"), h("(Functions d (Some false))", "false"), [], [sub(40, "3 ∷ 4 ∷ []")])
    stage("f8", [], 0, t("(Holding false)", "true"), h("(Ready d false)", "false"))
    step("(e0 asks grants)", "at_terminal", "e1 asks grants")
    step("(e1 asks grants)", "at_host", "e2 asks grants")
    step("(e2 asks grants)", "at_terminal", "e3 asks grants")
    named = "rw (naming-name_of d) (rw (fitting-name_of g d) (rw e refl))"
    STEPS.append(("(e3 asks grants)", "at_host",
                  "by_bool (fits g d.model) (λ e. (e4 asks grants, %s, lit< tt)) (λ e. (r4 asks grants, %s, lit< tt))" % (named, named)))
    step("(r4 asks grants)", "at_terminal", "r5 asks grants")
    step("(e4 asks grants)", "at_terminal", "e5 asks grants", "rw (naming-granted d) (rw (%s d) refl)" % ("device_of-name_of" if TOLERANT else "is_same_name"))
    step("(e5 false grants)", "at_host", "e6 false grants")
    step("(e5 true true)", "at_host", "e6 true true")
    step("(e5 true false)", "at_host", "f6")
    step("(e6 false grants)", "at_terminal", "e7 false grants")
    step("(e6 true grants)", "at_terminal", "e7 true grants")
    step("f6", "at_terminal", "f7")
    step("f7", "at_host", "f8")


def classic():
    abc = ["takes", "asks", "grants"]
    fresh = lambda state: terminal("d", "asks", state, "neither", "neither", "(phase_of takes)")
    h = lambda phase: "(host_at g grants neither neither %s)" % phase
    off = terminal("d", "asks", "Off", "neither", "neither", "Classic")
    stage("x0", ["asks", "grants"], 14, off, h("AskedEnhanced"), [verb(253, 40)])
    stage("x1", ["asks", "grants"], 13, off, h("AskedEnhanced"), [], [verb(252, 40)])
    stage("k0", abc, 12, fresh("Off"), h("AskedType"), [verb(253, 24)])
    stage("k1", abc, 11, fresh("On"), h("AskedType"), [], [verb(251, 24)])
    stage("k2", abc, 10, fresh("On"), h("(AskedName None)"), [sub(24, "1 ∷ []")])
    stage("k3", abc, 9, fresh("Named"), h("(AskedName None)"), [], [sub(24, "0 ∷ name_of d")])
    last = "(AskedName (Some (record { items = name_of d })))"
    stage("k4", abc, 2, fresh("Named"), h(last), [sub(24, "1 ∷ []")], premise=True)
    stage("k5", abc, 1, fresh("Named"), h(last), [], [sub(24, "0 ∷ name_of d")], premise=True)
    stage("k6", abc, 0, fresh("Named"), h(last), refused=("[]", "(NoDevice ∷ [])"))
    step("(x0 asks grants)", "at_terminal", "x1 asks grants")
    step("(x1 asks grants)", "at_host", "k0 false asks grants")
    step("(k0 takes asks grants)", "at_terminal", "k1 takes asks grants")
    step("(k1 takes asks grants)", "at_host", "k2 takes asks grants")
    step("(k2 takes asks grants)", "at_terminal", "k3 takes asks grants")
    heard = "rw (is_short_name d) (rw (fitting-name_of g d) (rw %s refl))"
    STEPS.append(("(k3 takes asks grants)", "at_host",
                  "by_bool (fits g d.model) (λ e. (g00 takes asks grants, %s, lit< tt)) (λ e. (k4 takes asks grants e, %s, lit< tt))" % (heard % "e", heard % "e")))
    step("(k4 takes asks grants other)", "at_terminal", "k5 takes asks grants other")
    step("(k5 takes asks grants other)", "at_host", "k6 takes asks grants", "rw (is_short_name d) (rw (fitting-name_of g d) (rw other (rw (is_equal_name d) refl)))")
    offers = [verb(253, 25), verb(251, 25), verb(253, 0), verb(251, 0)]
    replies = [verb(251, 25), verb(253, 25), verb(251, 0), verb(253, 0)]
    flag = lambda held: "true" if held else "false"
    for i in range(5):
        for j in range(i + 1):
            at = terminal("d", "asks", "Named", sides((flag(i >= 1), flag(i >= 2))), sides((flag(i >= 3), flag(i >= 4))),
                          "(phase_of takes)", flag(i >= 4))
            host = "(host_at g grants %s %s (Options d))" % (
                sides((flag(j >= 2), flag(j >= 1))), sides((flag(j >= 4), flag(j >= 3))))
            stage("g%d%d" % (i, j), abc, 8 - i - j, at, host, offers[i:], replies[j:i])
            if i < 4:
                for takes in ("true", "false") if i == 3 and TOLERANT else ("takes",):
                    step("(g%d%d %s asks grants)" % (i, j, takes), "at_terminal", "g%d%d %s asks grants" % (i + 1, j, takes))
            if j < i:
                step("(g%d%d takes asks grants)" % (i, j), "at_host", "g%d%d takes asks grants" % (i, j + 1))


def printed():
    lines = []
    lines.append("pub data Stage (d : Device) (g : Sizes) : Type 0 where")
    for s in STAGES:
        args = "(%s : Bool) → " % " ".join(s.args) if s.args else ""
        premise = "fits g d.model ≡ false → " if s.premise else ""
        lines.append("  %s : %s%sStage d g" % (s.name, args, premise))
    lines += ["", "-- the pair at a stage", "abbrev pub state : (d : Device) (g : Sizes) → Stage d g → SessionPair %s" % ("TolerantCore" if TOLERANT else "TermCore")]
    for s in STAGES:
        lines.append("state d g %s = pair_at %s %s (%s) (%s) %s %s" % (
            s.pattern(), s.terminal, s.host, listed(s.to_terminal), listed(s.to_host), *s.refused))
    lines += ["", "-- how many steps are left at most", "abbrev pub rank : {d : DeviceValue} {g : Sizes} → Stage d g → ℕ"]
    for s in STAGES:
        lines.append("rank %s = %d" % (s.pattern(), s.rank))
    lines += ["", "pub next : (d : Device) (g : Sizes) (s : Stage d g) (end : End)",
              "    → Leads (Stage d g) (state d g) (λ t. rank t) (rank s) (pair_step %s (state d g s) end)" % KIND,
              "unfolding type_heard enhanced_heard"]
    done = {}
    for pattern, end, proof in STEPS:
        done.setdefault(pattern.strip("()").split()[0], {}).setdefault(end, []).append((pattern, proof))
    for s in STAGES:
        for end in ("at_terminal", "at_host"):
            rows = done.get(s.name, {}).get(end, [(s.pattern(), "tt")])
            for pattern, proof in rows:
                lines.append("next d g %s %s = %s" % (pattern, end, proof))
    lines += ["", "-- at each stage two ready cores agree, and where nothing is on its way the pair is settled",
              "pub holds : (d : Device) (g : Sizes) (s : Stage d g) → Holds %s %s (state d g s)" % (KIND, "IsSettledTolerant" if TOLERANT else "IsSettled")]
    finals = {"r6" if TOLERANT else "r5": "inr (inl (0, lit< tt, refl))", "k6": "inr (inr (0, lit< tt, refl))"}
    for s in STAGES:
        values = [{"takes": "true"}, {"takes": "false"}] if "takes" in s.args else [{}]
        for chosen in values:
            if s.to_terminal:
                settled = "λ none all. cc"
            elif s.to_host:
                settled = "λ none all. cc"
            else:
                settled = "λ none all. " + finals.get(s.name, "inl (_, refl, refl)")
            lines.append("holds d g %s = (λ a b x y. cc, %s)" % (s.pattern(chosen), settled))
    return "\n".join(lines) + "\n"


STRICT_IMPORTS = """-- Every state that a pair of cores can reach, written out, and the step from each: printed by pair_stages.py.
use Rattle.std.proofs.Common.{ℕ, ◌≡◌, ◌++◌, Bool, true, false, [], ◌∷◌, Some, None, refl, lit<, inl, inr}
use Rattle.ds_codec.specs.Geometry.{Sizes}
use Rattle.tn_wire.specs.Stream.{told_verb, told_sub}
use Rattle.tn_cores.specs.declared.device.Device.{Device as DeviceValue}
use Rattle.tn_cores.specs.declared.session.SessionFault.TheVariants.{Rejected, NoDevice}
use Rattle.tn_cores.specs.declared.terminal.TypeState.TheVariants.{Off, On, Named}
use Rattle.tn_cores.specs.declared.terminal.TerminalPhase.TheVariants.{Classic, Opening, Enhanced, Device as Asked, Functions as Asking, Ready as Holding}
use Rattle.tn_cores.specs.declared.host.HostPhase.TheVariants.{AskedEnhanced, Device, Functions, Ready, AskedType, AskedName, Options}
use Rattle.tn_cores.specs.Devices.{name_of, fits}
use Rattle.tn_cores.specs.Heard.{type_heard, enhanced_heard}
use Rattle.tn_cores.specs.Replies.{resource_name, function_list}
use Rattle.tn_cores.specs.Rows.{neither}
use Rattle.tn_cores.specs.declared.terminal.TermCore.{TermCore}
use Rattle.tn_cores.specs.Pair.{SessionPair, End, at_terminal, at_host, pair_step, strict, IsSettled}
use Rattle.tn_cores.proofs.PairWords.{sides, terminal_at, host_at, pair_at, phase_of, by_bool, Leads, Holds}
use Rattle.tn_cores.proofs.NameLaws.{naming-name_of, naming-granted, fitting-name_of, is_same_name, is_short_name, is_equal_name}

"""

IMPORTS = STRICT_IMPORTS
if TOLERANT:
    IMPORTS = (IMPORTS.replace("a pair of cores can reach", "a tolerant terminal and a host can reach").replace("pair_stages.py.", "pair_stages.py tolerant.")
               .replace("{Rejected, NoDevice}", "{OptionRefused, NoDevice}").replace("terminal.TermCore.{TermCore}", "tolerant.TolerantCore.{TolerantCore}")
               .replace("strict, IsSettled}", "tolerant, IsSettledTolerant}").replace("terminal_at, host_at", "terminal_at, tolerant_at, host_at")
               .replace("is_same_name, ", "").replace("use Rattle.tn_cores.proofs.NameLaws", "use Rattle.tn_cores.proofs.Names.{device_of-name_of}\nuse Rattle.tn_cores.proofs.NameLaws"))

enhanced()
classic()
text = printed().replace("(d : Device)", "(d : DeviceValue)").replace("Off neither neither Device)", "Off neither neither Asked)")
print(IMPORTS + text, end="")
