%% What a process begins with, as its programmer thinks of it: what the converter and OTP's behaviours put around it is left
%% out. The converter begins a process by a name that is computed with 'apply begun' (erlang/README.md), proc_lib begins one
%% with init_p, and gen one of a behaviour with init_it, as proc_lib:translate_initial_call/1 has it.
-module(report_begin).
-export([meant/2]).

%% {call, Name, Arguments}, {value, Function} of a function that is a value, or {behaviour, Behaviour, Module}.
meant('apply begun', [{atom, Module}, {atom, Function}, {list, Arguments, nil}]) -> meant(named(Module, Function), Arguments);
meant('apply fun', [Function]) -> {value, Function};
meant('proc_lib:init_p', [_, _, {atom, Module}, {atom, Function}, {list, Arguments, nil}]) -> meant(named(Module, Function), Arguments);
meant('proc_lib:init_p', [_, _, Function]) -> {value, Function};
meant('gen:init_it', [{atom, gen_server}, _, _, {atom, supervisor}, {tuple, [_, {atom, Module}, _]}, _]) ->
    {behaviour, supervisor, Module};
meant('gen:init_it', [{atom, gen_server}, _, _, _, {atom, supervisor}, {tuple, [_, {atom, Module}, _]}, _]) ->
    {behaviour, supervisor, Module};
meant('gen:init_it', [{atom, gen_event} | _]) -> {behaviour, gen_event, none};
meant('gen:init_it', [{atom, Behaviour}, _, _, {atom, Module}, _, _]) -> {behaviour, Behaviour, Module};
meant('gen:init_it', [{atom, Behaviour}, _, _, _, {atom, Module} | _]) -> {behaviour, Behaviour, Module};
meant(Name, Arguments) -> {call, Name, Arguments}.

named(Module, Function) -> list_to_atom(lists:concat([Module, ":", Function])).
