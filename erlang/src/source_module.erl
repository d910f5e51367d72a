%% A module as the compiler of this machine understands it: from its source, or from the abstract code of a compiled one.
-module(source_module).

-export([load/2]).

-include("core.hrl").

%% {ok, Name, whether a function runs when it is loaded, Exports, Definitions}, or {error, Lines} as the compiler prints them.
load(File, Options) ->
    case compiled(File, [to_core, binary, return_errors, nowarn_export_all | Options]) of
        {ok, _, #c_module{name = #c_literal{val = Name}, exports = Exports, attrs = Attributes} = Module} ->
            RunsWhenLoaded = lists:member(on_load, [A || {#c_literal{val = A}, _} <- Attributes]),
            {ok, Name, RunsWhenLoaded, [E || #c_var{name = {F, _} = E} <- Exports, F =/= module_info], definitions(Module)};
        %% (where warnings are errors there may be no other)
        {error, [], Warnings} -> {error, [error_lines(F, Ws) || {F, Ws} <- Warnings]};
        {error, Errors, _} -> {error, [error_lines(F, Es) || {F, Es} <- Errors]};
        {error, Why} -> {error, [io_lib:format("~ts: ~ts~n", [File, Why])]};
        error -> {error, [io_lib:format("~ts: it cannot be compiled~n", [File])]}
    end.

compiled(File, Options) ->
    case filename:extension(File) of
        ".beam" -> compiled_again(File, Options);
        _ -> compile:file(File, Options)
    end.

%% What a parse transform has made is in the abstract code, so it is not run again.
compiled_again(File, Options) ->
    case beam_lib:chunks(File, [abstract_code]) of
        {ok, {_, [{abstract_code, {raw_abstract_v1, Forms}}]}} -> compile:forms([F || F <- Forms, not is_transform(F)], Options);
        {ok, _} -> {error, "it was compiled without +debug_info, so its functions are not in it"};
        {error, beam_lib, Why} -> {error, beam_lib:format_error(Why)}
    end.

is_transform({attribute, _, compile, {parse_transform, _}}) -> true;
is_transform({attribute, _, compile, Words}) when is_list(Words) -> lists:keymember(parse_transform, 1, Words);
is_transform(_) -> false.

%% All functions but module_info, which each module gets.
definitions(#c_module{defs = Defs}) ->
    [#definition{name = Name, code = Code, home = lists:concat([F, "/", A])}
     || {#c_var{name = {F, A} = Name}, Code} <- Defs, F =/= module_info].

error_lines(File, Errors) -> [error_line(File, E) || E <- Errors].

error_line(File, {{Line, Column}, Module, What}) ->
    io_lib:format("~ts:~w:~w: ~ts~n", [File, Line, Column, Module:format_error(What)]);
error_line(File, {none, Module, What}) -> io_lib:format("~ts: ~ts~n", [File, Module:format_error(What)]);
error_line(File, {Line, Module, What}) -> io_lib:format("~ts:~w: ~ts~n", [File, Line, Module:format_error(What)]);
error_line(File, {Module, What}) -> io_lib:format("~ts: ~ts~n", [File, Module:format_error(What)]).
