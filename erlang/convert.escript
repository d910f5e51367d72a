#!/usr/bin/env escript
%%! +A0 +fnu
%% convert.escript FILE.erl [--entry f/0] [--after-timeout MS] [--applications N] [--strict] [--tests] [--notes] [--doubts FILE] [-I DIR] [-D NAME[=VALUE]]
%% Prints the Core Erlang module that the explorer reads. README.md in this folder says more.
-mode(interpret).
-include("built.hrl").

main(Arguments) ->
    Here = filename:dirname(filename:absname(escript:script_name())),
    Built = built(Here, "converter", fun(Work) -> compile(Here, Work) end),
    load(Built, fun(Name) -> not is_of_report(Name) end, of_the_compiler()),
    {ok, Library} = file:read_file(filename:join(Built, "library.terms")),
    halt(converter:main(Arguments ++ headers(Here), binary_to_term(Library))).

%% Up to Core Erlang it runs these modules.
of_the_compiler() ->
    [compile, epp, erl_scan, erl_parse, erl_lint, erl_bifs, erl_expand_records, v3_core, sys_core_fold, sys_core_alias, cerl, cerl_clauses,
     cerl_trees, core_lib, sets, sofs, digraph, digraph_utils].

%% Where EUnit is not installed its header is one of this folder.
headers(Here) ->
    case code:lib_dir(eunit) of
        {error, bad_name} -> ["-I", filename:join(Here, "include")];
        _ -> []
    end.

compile(Here, Work) ->
    [{ok, _} = compile:file(File, [report_errors, {outdir, Work}]) || File <- modules(Here)],
    Library = lists:append([library(File) || File <- libraries(Here)]),
    true = code:add_patha(Work),
    ok = file:write_file(filename:join(Work, "library.terms"), term_to_binary(packed_functions:pack(maps:from_list(Library)))).

%% What begins with report_ belongs to another script, which compiles known_calls for itself too.
modules(Here) -> [File || File <- filelib:wildcard(filename:join(Here, "src/*.erl")), not is_of_report(filename:basename(File))].
libraries(Here) -> filelib:wildcard(filename:join(Here, "library/*.erl")).

%% The functions of one file of the library: their names, as 'lists:map'/2, and their code.
library(File) ->
    {ok, _, Module} = compile:file(File, [to_core, binary, report_errors, nowarn_export_all]),
    [{cerl:var_name(Name), Code} || {Name, Code} <- cerl:module_defs(Module), element(1, cerl:var_name(Name)) =/= module_info].
