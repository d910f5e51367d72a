%% Where the first process begins: at main/0 of the first module, at its one exported function without arguments, or at the
%% function that was asked for.
-module(entry_point).

-export([settle/3]).

%% {Entry, Modules, Ledger}, where Entry is {Module, Name}. Asked is {Module, F}, {F} of the first module, or none.
settle(Asked, Modules, Ledger) ->
    Main = modules:main(Modules),
    {Exports, Modules1} = modules:exports(Main, Modules),
    case asked(Asked, Main, Exports, Modules1) of
        {ok, Entry, Modules2} -> {Entry, Modules2, Ledger};
        {only, F} -> {{Main, {F, 0}}, Modules1, ledger:note("the first process runs ~ts/0", [F], Ledger)};
        {refuse, Text} -> {none, Modules1, ledger:refuse_file(modules:file(Modules), Text, Ledger)}
    end.

asked(none, Main, Exports, Modules) ->
    case {has(Main, main, Modules), [F || {F, 0} <- Exports]} of
        {{true, Modules1}, _} -> {ok, {Main, {main, 0}}, Modules1};
        {_, [F]} -> {only, F};
        {_, []} -> {refuse, "no function main/0, and no exported function without arguments: --entry f/0 names one"};
        {_, Fs} ->
            Listed = lists:join(",", [io_lib:format("~ts", [F]) || F <- Fs]),
            {refuse, io_lib:format("no function main/0: say which of [~ts] with --entry f/0", [Listed])}
    end;
asked({F}, Main, _, Modules) -> there(Main, F, io_lib:format("no function ~ts/0", [F]), Modules);
asked({Module, F}, _, _, Modules) -> there(Module, F, io_lib:format("no function ~ts:~ts/0", [Module, F]), Modules).

there(Module, F, Text, Modules) ->
    case has(Module, F, Modules) of
        {true, Modules1} -> {ok, {Module, {F, 0}}, Modules1};
        {false, _} -> {refuse, Text}
    end.

has(Module, F, Modules) ->
    {Definition, Modules1} = modules:definition(Module, {F, 0}, Modules),
    {Definition =/= none, Modules1}.
