%% Functions that choose what a computed call means, among what the program can mean: a closed world. Sites are
%%   {call, f, n}     Module:f(A1, .., An)
%%   {computed, n}    Module:Function(A1, .., An)
%%   applied          apply(Module, Function, Arguments)
%%   begun            a process that begins with what is computed: begun(Module, Function, Arguments)
%%   exported         erlang:function_exported(Module, Function, Arity)
%% All but begun take one more argument: the name of the table of a stop, for what is not known here.
-module(dispatchers).

-export([name/1, is_one/1, fits/3, unknown/1, definition/2]).

-include("core.hrl").

name({call, F, N}) -> {list_to_atom(lists:concat(["call ", F])), N + 2};
name({computed, N}) -> {'computed call', N + 3};
name(applied) -> {'apply computed', 4};
name(begun) -> {'apply begun', 3};
name(exported) -> {'function exported', 4}.

is_one({F, _}) ->
    case atom_to_list(F) of
        "call " ++ _ -> true;
        _ -> lists:member(F, ['computed call', 'apply computed', 'apply begun', 'function exported'])
    end.

%% Whether a site may call a function of this name; IsAtom says whether that is an atom of the program.
fits({call, F, N}, {F, N}, _) -> true;
fits({call, _, _}, _, _) -> false;
fits({computed, N}, {_, A}, IsAtom) -> N =:= A andalso IsAtom;
fits(_, _, IsAtom) -> IsAtom.

%% What is not read where nothing is chosen.
unknown({call, F, N}) -> io_lib:format("~ts/~w of a module that is not known", [F, N]);
unknown({computed, N}) -> io_lib:format("a function of ~w arguments of a module that is not known", [N]);
unknown(exported) -> "erlang:function_exported/3 of a module that is not known";
unknown(_) -> "a function of a module that is not known".

%% Choices are {{M, F, A}, explorer | {function, Name} | unread}, and {M, undefined} for each module that is here.
definition(Site, Choices) ->
    {Name, Arity} = name(Site),
    Vars = [core_tree:variable(list_to_atom("A" ++ integer_to_list(I))) || I <- lists:seq(1, Arity)],
    {Asked, Text} = asked_and_text(Site, Vars),
    Last = case Text of
        none -> core_tree:literal(stops:name_of(unknown(Site), {"", 0}, atom_to_list(Name)));
        _ -> Text
    end,
    Clauses = [clause(Site, Asked, C, Last) || C <- Choices] ++ last(Site, Last),
    #definition{name = {Name, Arity}, origin = library, home = lists:concat([Name, "/", Arity]),
                code = #c_fun{vars = Vars, body = #c_case{arg = values(tested(Site, Asked)), clauses = Clauses}}}.

asked_and_text(begun, Vars) -> {Vars, none};
asked_and_text(_, Vars) -> {lists:droplast(Vars), lists:last(Vars)}.

values([One]) -> One;
values(Several) -> #c_values{es = Several}.

%% What is compared: the module alone, with the function, or with the function and its arguments or arity.
tested({call, _, _}, [Module | _]) -> [Module];
tested({computed, _}, [Module, Function | _]) -> [Module, Function];
tested(_, Vars) -> Vars.

clause({call, _, _}, [_ | Args], {{M, F, _}, Target}, Text) -> core_tree:clause([core_tree:literal(M)], target(Target, M, F, Args, Text));
clause({computed, _}, [_, _ | Args], {{M, F, _}, Target}, Text) ->
    core_tree:clause([core_tree:literal(M), core_tree:literal(F)], target(Target, M, F, Args, Text));
clause(exported, _, {{M, F, A}, _}, _) -> core_tree:clause([core_tree:literal(X) || X <- [M, F, A]], core_tree:literal(true));
clause(_, _, {{M, F, A}, Target}, Text) ->
    Args = [core_tree:variable(list_to_atom("B" ++ integer_to_list(I))) || I <- lists:seq(1, A)],
    core_tree:clause([core_tree:literal(M), core_tree:literal(F), core_tree:list(Args)], target(Target, M, F, Args, Text));
clause(Site, _, {M, undefined}, _) ->
    {Others, Tests} = others(Site),
    core_tree:clause([core_tree:literal(M) | Others], all_of(Tests), none_there(Site)).

target(explorer, M, F, Args, _) -> core_tree:call([], M, F, Args);
target({function, Name}, _, _, Args, _) -> core_tree:apply_to([], Name, Args);
target(unread, _, _, _, Text) -> stopped(Text).

stopped(Text) -> core_tree:apply_to([], {'not read', 1}, [Text]).

%% A module that is here has no other function.
none_there(exported) -> core_tree:literal(false);
none_there(_) -> core_tree:raise_error([], core_tree:literal(undef)).

%% {What stands for anything in the place of the function, and of its arguments or arity; the tests of what these have to be}.
others({call, _, _}) -> {[], []};
others({computed, _}) ->
    Function = core_tree:variable('other2@'),
    {[Function], [tests_atom(Function)]};
others(Site) ->
    [Function, Last] = Others = [core_tree:variable('other2@'), core_tree:variable('other3@')],
    {Others, [tests_atom(Function), tests_last(Site, Last)]}.

tests_atom(V) -> core_tree:call_erlang([], is_atom, [V]).

tests_last(exported, Arity) -> core_tree:call_erlang([], is_integer, [Arity]);
tests_last(_, Arguments) -> core_tree:call_erlang([], '>=', [core_tree:call_erlang([], length, [Arguments]), core_tree:literal(0)]).

all_of([]) -> core_tree:literal(true);
all_of([Test]) -> Test;
all_of([Test | Tests]) -> core_tree:call_erlang([], 'and', [Test, all_of(Tests)]).

%% What is no module, no function or no list of arguments is wrong; else the module is not known.
last(Site, Text) ->
    Module = core_tree:variable('other1@'),
    {Others, Tests} = others(Site),
    [core_tree:clause([Module | Others], all_of([tests_atom(Module) | Tests]), stopped(Text)),
     core_tree:clause([Module | Others], core_tree:raise_error([], core_tree:literal(badarg)))].
