#!/usr/bin/env bash
# Holds the numbers that docs/RECEIVER.md and docs/TAPE.md print against the definitions of crates/model.
#   oracle/papers.sh
# papers.py reads the papers' tables and worked sentences and writes an equation for each; the prover computes both sides.
# Rules that stand in running text only, as in 'least + least / 64', are not read.
# Exit status 0: every number is the definitions'. 1: some are not, a line for each. 2: could not be run, also where a table or a
# sentence is not found or has too few rows.
. "$(dirname "$0")/common.sh"
command -v rt > /dev/null || { echo "rt is not on the PATH: install the Rattle toolchain, and put the folder of its rt on the PATH" >&2; exit 2; }
definitions
cat > "$module" <<'ANTT'
use Rattle.std.specs.Prelude.{◌≡◌, refl, ℕ, zero, suc, ◌+◌, ◌-◌, ◌*◌, ◌/◌, ◌%◌, ◌^◌, Bool, true, false, cond, eqb, List, [], ◌∷◌, ◌++◌, map, reverse, length, take, drop, replicate, get_or, ℤ, pos, negsuc, neg_ℤ, Float}
use Rattle.std.proofs.Math.Option.{Option, none, some}
use Rattle.model.specs.Bytes.{big_endian_bytes}
use Rattle.model.specs.Floats as Floats
use Rattle.model.specs.Floats.{◌/f◌}
use Rattle.model.specs.Sizes as Sizes
use Rattle.model.specs.Framing as Framing
use Rattle.model.specs.Framing.{Side, A, B}
use Rattle.model.specs.Counts as Counts
use Rattle.model.specs.Samples as Samples
use Rattle.model.specs.JitterBuffer as Jitter
use Rattle.model.specs.JitterBuffer.{Buffer, Played}
use Rattle.model.specs.Row as Row
use Rattle.model.specs.Picture as Picture
use Rattle.model.specs.Scaling as Scaling
use Rattle.model.specs.Clock as Clock
use Rattle.model.specs.Receiver.{Estimates, Setup, State, Lent, Call, datagram, play, reset, set, probe, one_way, depth, transmit_depth, fresh}
use Rattle.model.specs.Questions.{Question, first_no, questions, setup_questions}
use Rattle.model.specs.Tape as Tape
use Rattle.model.specs.Tape.{Head, datagram_head, play_head, reset_head, set_head, probe_head, one_way_head, depth_head, transmit_head, Word, setup_word, call_word, end_word, word_of, word_in, body_length, Found, found_call, found_end, found_bad, find, TapeRead, read_tape, bad_tape, read, Written, written, too_large, words_of, bytes_of}
use Rattle.model.specs.Replay as Replay
use Rattle.model.proofs.Computes.{computes}

-- ---- words as numbers: papers.py has the same

none' : ℕ
none' = 2 ^ 80

empty : ℕ
empty = 2 ^ 81

switch : Bool → ℕ
switch false = 2 ^ 82
switch true = 2 ^ 83

bit : Bool → ℕ
bit false = 0
bit true = 1

bits : List Bool → List ℕ
bits bs = map bit bs

side : Side → ℕ
side A = 0
side B = 1

-- whether a number is negative, and its magnitude
signed : ℤ → List ℕ
signed (pos n) = 0 ∷ n ∷ []
signed (negsuc n) = 1 ∷ suc n ∷ []

floats : List Float → List ℕ
floats xs = map (λ x. Floats.to_bits x) xs

-- ---- what is absent or empty

or_none : Option ℕ → ℕ
or_none none = none'
or_none (some n) = n

signed_or : Option ℤ → ℕ
signed_or none = none'
signed_or (some n) = Clock.bits64 n

row_or : Option Row.Row → ℕ
row_or none = none'
row_or (some r) = r.number

timing_or : (Clock.Timing → ℕ) → Option Clock.Timing → ℕ
timing_or f none = none'
timing_or f (some t) = f t

depth_or : Option Clock.Depth → ℕ
depth_or none = none'
depth_or (some d) = Floats.to_bits d.average

length_or : {X : Type 0} → List X → ℕ
length_or [] = empty
length_or (x ∷ xs) = suc (length xs)

-- ---- a receiver

sized : ℕ → ℕ → ℕ → ℕ → ℕ → ℕ → Sizes.Sizes
sized packet target max bins width height =
    record { packet = packet; target = target; max = max; bins = bins; width = width; height = height }

zs : Sizes.Sizes
zs = sized 3 5 10 7 2 3

lent : Lent
lent = record { floats = Sizes.float_area zs; words = Sizes.word_area zs }

-- the estimates 1, 2, 3 of A and 4, 5, 6 of B
given : Setup
given =
    record {
      sizes = zs;
      estimates_a = record { top = 0x3f800000; floor = 0x40000000; range = 0x40400000 };
      estimates_b = record { top = 0x40800000; floor = 0x40a00000; range = 0x40c00000 };
    }

start : State
start = fresh given

with_calls : ℕ → State → State
with_calls n s =
    record { sizes = s.sizes; calls = n; incoming = s.incoming; counts = s.counts; channel_a = s.channel_a; channel_b = s.channel_b; clock = s.clock }

with_incoming : ℕ → State → State
with_incoming n s =
    record { sizes = s.sizes; calls = s.calls; incoming = n; counts = s.counts; channel_a = s.channel_a; channel_b = s.channel_b; clock = s.clock }

with_sizes : Sizes.Sizes → State → State
with_sizes z s =
    record { sizes = z; calls = s.calls; incoming = s.incoming; counts = s.counts; channel_a = s.channel_a; channel_b = s.channel_b; clock = s.clock }

-- ---- questions

refusal : State → Call → ℕ
refusal s c = or_none (first_no (questions lent s c))

numbers : List Question → List ℕ
numbers [] = []
numbers (q ∷ qs) = q.number ∷ numbers qs

asks : ℕ → List Question → ℕ
asks n [] = 0
asks n (q ∷ qs) = cond (eqb n q.number) 1 (asks n qs)

-- what each call asks, in the order of the paper's table of calls
asked : List (List Question)
asked =
    setup_questions lent given
    ∷ map (questions lent start)
    (datagram (replicate 16 0)
    ∷ play A 1
    ∷ reset A
    ∷ set A (record { adaptive = false; top = 0; range = 0; zoom = 0; smoothing = 0 })
    ∷ probe 0 0 0 0
    ∷ one_way 0 0
    ∷ depth 0 (record { conceals = 0; late = 0; overflow = 0; resyncs = 0 })
    ∷ transmit_depth 0
    ∷ [])

stream_code : Framing.Stream → ℕ
stream_code (Framing.audio s) = 10 + side s
stream_code (Framing.waterfall s) = 20 + side s
stream_code Framing.other_stream = 0

-- ---- sound: sample i of sequence s is 1000 × s + i, and the filler is 0

push_one : Sizes.Sizes → ℕ → Buffer ℕ → Buffer ℕ
push_one z s b = Jitter.push 0 z (record { sequence = s; samples = Picture.count_from (1000 * s) z.packet }) b

pushed : Sizes.Sizes → List ℕ → Buffer ℕ → Buffer ℕ
pushed z [] b = b
pushed z (s ∷ ss) b = pushed z ss (push_one z s b)

-- after each push: inserted, late, overflow, concealed, next, and whether there is room
pushes : Sizes.Sizes → List ℕ → Buffer ℕ → List ℕ
pushes z [] b = []
pushes z (s ∷ ss) b =
    let c = push_one z s b in
    c.counters.inserted ∷ c.counters.late ∷ c.counters.overflow ∷ c.counters.concealed ∷ or_none c.next ∷ bit (Jitter.has_room z c) ∷ pushes z ss c

plays : Sizes.Sizes → List ℕ → Buffer ℕ → List (Played ℕ)
plays z [] b = []
plays z (n ∷ ns) b = let r = Jitter.play 0 z n b in r.answer ∷ plays z ns r.after

after_plays : Sizes.Sizes → List ℕ → Buffer ℕ → Buffer ℕ
after_plays z [] b = b
after_plays z (n ∷ ns) b = after_plays z ns (Jitter.play 0 z n b).after

each : (Played ℕ → ℕ) → List (Played ℕ) → List ℕ
each f [] = []
each f (p ∷ ps) = f p ∷ each f ps

-- taken, dropped and short of each play, and inserted, concealed, resyncs, filled and largest after them
session : Sizes.Sizes → List ℕ → List ℕ → List ℕ
session z sequences ns =
    let b = pushed z sequences Jitter.fresh_buffer in
    let ps = plays z ns b in
    let after = after_plays z ns b in
    let k = after.counters in
    each (λ p. p.taken) ps
    ++ (each (λ p. p.dropped) ps
    ++ (each (λ p. p.short) ps ++ (k.inserted ∷ k.concealed ∷ k.resyncs ∷ k.filled ∷ after.largest ∷ [])))

-- ---- rows

little_endian_words : List ℕ → List ℕ
little_endian_words [] = []
little_endian_words (v ∷ vs) = reverse (big_endian_bytes 4 v) ++ little_endian_words vs

-- a chunk's payload: row number, total, first bin, values as bit patterns
chunk_of : ℕ → ℕ → ℕ → List ℕ → List ℕ
chunk_of number total first values =
    big_endian_bytes 2 number ++ (big_endian_bytes 2 total ++ (big_endian_bytes 2 first ++ little_endian_words values))

values_or : Option (List Float) → List ℕ
values_or none = none' ∷ []
values_or (some xs) = length xs ∷ floats xs

-- what each of the payloads completes, in turn
completed : List (List ℕ) → Option Row.Row → List ℕ
completed [] r = []
completed (p ∷ ps) r = let x = Row.push_chunk p r in values_or x.completed ++ completed ps x.row

-- ---- clock

timing_offset : Option Clock.Timing → List ℕ
timing_offset none = none' ∷ []
timing_offset (some t) = signed t.offset

-- the offset after each probe, of which offset and round trip are given in turn
offsets : List ℤ → Option Clock.Timing → List ℕ
offsets [] t = []
offsets (o ∷ []) t = []
offsets (o ∷ r ∷ rest) t = let after = Clock.probed o r t in timing_offset after ++ offsets rest after

-- ---- lines of replay: each number is another one

counters : Jitter.Counters
counters =
    record { received = 11; inserted = 12; concealed = 13; late = 14; overflow = 15; invalid_size = 16; resyncs = 17; filled = 18 }

counting : State
counting =
    record {
      sizes = zs;
      calls = 0;
      incoming = 10;
      counts = record {
        audio = record { packets = 30; dropped = 31; late = 32; last = none };
        waterfall = record { packets = 40; dropped = 41; late = 42; last = none };
      };
      channel_a = start.channel_a;
      channel_b = start.channel_b;
      clock = start.clock;
    }

told : Clock.Clock
told =
    record {
      timing = some (record { offset = neg_ℤ (pos 51); round_trip = 52; least = 54 });
      one_way = some (pos 53);
      depth = none;
      counts = record { conceals = 0; late = 0; overflow = 0; resyncs = 0 };
      transmit_peak = Floats.f0;
    }

heard : Played Float
heard = record { samples = Floats.from_bits 0x3f800000 ∷ Floats.from_bits 0xbf800000 ∷ []; taken = 61; dropped = 62; short = 63 }

-- the letters that lines begin with
starts_line : Bool → List ℕ → List ℕ
starts_line begins [] = []
starts_line true (c ∷ cs) = c ∷ starts_line (eqb c 10) cs
starts_line false (c ∷ cs) = starts_line (eqb c 10) cs

letters : List ℕ → List ℕ
letters text = starts_line true text

-- ---- tape

head_code : Head → List ℕ
head_code (datagram_head n) = 1 ∷ n ∷ []
head_code (play_head s n) = 2 ∷ side s ∷ n ∷ []
head_code (reset_head s) = 3 ∷ side s ∷ []
head_code (set_head s a) = 4 ∷ side s ∷ bit a ∷ []
head_code probe_head = 5 ∷ []
head_code one_way_head = 6 ∷ 0 ∷ []
head_code depth_head = 6 ∷ 1 ∷ []
head_code transmit_head = 6 ∷ 2 ∷ []

word : Option Word → List ℕ
word none = none' ∷ []
word (some setup_word) = 7 ∷ []
word (some (call_word h)) = head_code h
word (some end_word) = 0 ∷ []

known : Option Word → ℕ
known none = 0
known (some w) = 1

-- the end, or a bad word so many words further on
body : Found → List ℕ
body (found_call c n) = 0 ∷ []
body found_end = 1 ∷ []
body (found_bad n) = 2 ∷ n ∷ []

call_as : Call → List ℕ
call_as (datagram bytes) = 1 ∷ length bytes ∷ bytes
call_as (play s n) = 2 ∷ side s ∷ n ∷ []
call_as (reset s) = 3 ∷ []
call_as (set s x) = 4 ∷ []
call_as (probe t1 t2 t3 t4) = 5 ∷ []
call_as (one_way receive send) = 6 ∷ []
call_as (depth samples counts) = 6 ∷ []
call_as (transmit_depth samples) = 6 ∷ []

calls_as : List Call → List ℕ
calls_as [] = []
calls_as (c ∷ cs) = call_as c ++ calls_as cs

-- a setup's twelve numbers and its calls, or 11 and the place
read_as : TapeRead → List ℕ
read_as (read_tape t) = Tape.setup_body t.setup ++ calls_as t.calls
read_as (bad_tape place) = 11 ∷ place ∷ []

made_of : List ℕ → List Call → Tape.Tape
made_of twelve cs = record { setup = Tape.setup_of twelve; calls = cs }

written' : Written → List ℕ
written' (written bytes) = bytes
written' (too_large place) = []

-- ---- the papers

ANTT
python3 "$here/papers.py" equations "$root" "$module" "$work/places" || exit 2
check_definitions || true
python3 "$here/papers.py" verdict "$work/places" "$work/log" || exit $?
