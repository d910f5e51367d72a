#!/usr/bin/env escript
%% -*- erlang -*-
%%! +A0 +fnu
%% Reports an exploration to people: report.escript FOLDER FILE DELIVERY DRAWINGS PAGE [OPTION ..], as ./explore calls it. The lines of standard
%% input say what to do (report_main). The modules of src/ whose names begin with report_, and the lists of calls,
%% are compiled the first time (built.hrl).
-mode(interpret).
-include("built.hrl").

main(Words) ->
    Here = filename:dirname(filename:absname(escript:script_name())),
    Built = built(Here, "report", fun(Work) -> compile(Here, Work) end),
    load(Built, fun(Name) -> is_of_report(Name) end, [known_calls | of_the_compiler()]),
    report_main:main(Words).

%% From Core Erlang on it runs these modules.
of_the_compiler() ->
    [compile, core_scan, core_parse, core_lint, cerl, cerl_trees, sets, sofs, string, unicode_util, orddict, ordsets, sys_core_prepare,
     sys_core_fold, sys_core_alias, sys_core_bsm, erl_bifs, v3_kernel, beam_kernel_to_ssa, beam_ssa, beam_ssa_bool, beam_ssa_opt, beam_ssa_type,
     beam_ssa_dead, beam_ssa_share, beam_ssa_bsm, beam_ssa_bc_size, beam_ssa_recv, beam_ssa_throw, beam_ssa_pre_codegen, beam_ssa_codegen,
     beam_call_types, beam_types, beam_utils, beam_a, beam_block, beam_jump, beam_clean, beam_trim, beam_flatten, beam_z, beam_validator,
     beam_asm, beam_dict, beam_opcodes].

compile(Here, Work) ->
    Sources = [filename:join([Here, "src", "known_calls.erl"]) | filelib:wildcard(filename:join([Here, "src", "report_*.erl"]))],
    [{ok, _} = compile:file(Source, [report_errors, {outdir, Work}]) || Source <- Sources].
