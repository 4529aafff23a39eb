#!/usr/bin/env bash
# Holds the crate audio_metrics against the original by running both.
#   oracle/audio_metrics.sh SOURCES [SEED] [COUNT]
# SOURCES is the folder that has rigflow-core/ and rigflow-client/. COUNT is the number of random cases a function.
# Exit status 0: all equal. The first difference is printed, with the calls that led to it.
. "$(dirname "$0")/common.sh"
original "$1"
libraries audio_metrics_words
run audio_metrics "${2:-1}" "${3:-1000000}"
