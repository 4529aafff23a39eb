#!/usr/bin/env bash
# Holds the definitions of crates/model against the original by running both.
#   oracle/definitions.sh SOURCES [SEED] [COUNT]
# SOURCES is the folder that has rigflow-core/ and rigflow-client/. Exit status 0: every session is equal.
. "$(dirname "$0")/common.sh"
original "$1"
seed=${2:-1}
count=${3:-100}
definitions
cat > "$module" <<'ANTT'
use Rattle.std.specs.Prelude.{◌≡◌, refl, ℕ, true, false, List, [], ◌∷◌, ◌++◌, Float}
use Rattle.std.proofs.Math.Option.{Option, none, some}
use Rattle.model.specs.Floats as Floats
use Rattle.model.specs.Sizes.{Sizes}
use Rattle.model.specs.Framing.{A, B}
use Rattle.model.specs.JitterBuffer as Jitter
use Rattle.model.specs.JitterBuffer.{Buffer}
use Rattle.model.specs.Scaling as Scaling
use Rattle.model.specs.Clock as Clock
use Rattle.model.specs.Receiver.{Setup, Call, Lent, datagram, play, reset, set, probe, one_way, depth, transmit_depth, refused, accepted, played, row, fresh}
use Rattle.model.specs.Step.{Event, run}
use Rattle.model.proofs.Computes.{computes}

-- ---- the numbers that are compared

setup_of : ℕ → ℕ → ℕ → ℕ → ℕ → ℕ → ℕ → ℕ → ℕ → ℕ → Setup
setup_of packet target max bins t f r u g s =
    record {
      sizes = record { packet = packet; target = target; max = max; bins = bins; width = 4; height = 2 };
      estimates_a = record { top = t; floor = f; range = r };
      estimates_b = record { top = u; floor = g; range = s }
    }

lent : Lent
lent = record { floats = 16384; words = 16384 }

float_bits : List Float → List ℕ
float_bits [] = []
float_bits (x ∷ xs) = Floats.to_bits x ∷ float_bits xs

play_bits : List Event → List ℕ
play_bits [] = []
play_bits (e ∷ es) =
    elim e.answer [ refused n ↦ [] | accepted ↦ [] | played p ↦ float_bits p.samples | row r ↦ [] ] ++ play_bits es

counters_of : Sizes → Buffer Float → List ℕ
counters_of z b =
    let k = b.counters in
    k.received ∷ k.inserted ∷ k.concealed ∷ k.late ∷ k.overflow ∷ k.invalid_size ∷ k.resyncs
    ∷ b.largest ∷ Jitter.buffered z b ∷ []

mark : List ℕ
mark = 77 ∷ []

option_bits : Option Float → ℕ
option_bits none = 1
option_bits (some x) = Floats.to_bits x

display_bits : Scaling.Display → List ℕ
display_bits d = float_bits (d.top_estimate ∷ d.floor_estimate ∷ d.range_estimate ∷ [])

clock_digest : Clock.Clock → List ℕ
clock_digest k =
    option_bits (Clock.offset_ms k) ∷ option_bits (Clock.round_trip_ms k) ∷ option_bits (Clock.one_way_ms k)
    ∷ Floats.to_bits (Clock.depth_ms k) ∷ Floats.to_bits (Clock.depth_peak_ms k) ∷ Floats.to_bits k.transmit_peak
    ∷ k.counts.conceals ∷ k.counts.late ∷ k.counts.overflow ∷ k.counts.resyncs ∷ []

digest : Setup → List Call → List ℕ
digest x cs =
    let r = run lent cs (fresh x) in
    let s = r.after in
    let a = s.channel_a in
    let b = s.channel_b in
    let t = s.counts.audio in
    let w = s.counts.waterfall in
    play_bits r.events
    ++ (counters_of s.sizes a.buffer
    ++ (counters_of s.sizes b.buffer
    ++ ((s.incoming ∷ t.packets ∷ w.packets ∷ t.dropped ∷ w.dropped ∷ t.late ∷ w.late ∷ [])
    ++ (float_bits a.spectrum
    ++ (mark
    ++ (float_bits b.spectrum
    ++ (mark
    ++ (float_bits a.smoothing
    ++ (mark
    ++ (float_bits b.smoothing
    ++ (mark
    ++ (a.picture
    ++ (b.picture
    ++ (display_bits a.display
    ++ (display_bits b.display
    ++ clock_digest s.clock)))))))))))))))

ANTT
run definitions "$seed" "$count" >> "$module"
if ! check_definitions; then
  # each error must be a session's, and say what was computed
  if ! grep -q 'error: `session_' "$work/log" || grep 'error:' "$work/log" | grep -qv 'error: `session_' || grep -qE 'not in scope|not admitted|not unfold|can be named' "$work/log"; then
    said
    echo "could not be run"
    exit 2
  fi
  sed -nE 's/^.*error: `(session_[0-9]+)`.*/\1/p; s/^  computed as far as they go, /  /p' "$work/log" | cut -c1-400
  echo "not equal, seed $seed"
  exit 1
fi
echo "$count sessions equal, seed $seed"
