%% Makes of a Core module one that the machine can play with the answers of a transcript.
%%
%% Each call of processes and tables asks report_machine in its place, and each receive asks it for its message. So do the
%% calls of the process dictionary, since report_machine keeps there what it has to know of the process. The lines are
%% those of the annotations on calls, receives and applications: [Line], or [Line, {file, File}] where it is another file
%% than the source. The module that is made has a name of its own, so that it takes the place of no module of the machine.
-module(report_instrument).
-export([module/3, read/1, name/0, first/0, allowed/0]).

%% The name of the module that is made, and that of its function which is what the first process runs.
name() -> '$played'.
first() -> '$first'.

%% The name of the function of that module which says how many applications it allows between two requests.
allowed() -> '$allowed'.

%% The name of the module that a text spells, what its first process runs, and its code; or why there is none. The places of its
%% functions are those of clause_places.
module(Text, Source, Places) ->
    try
        Core = read(Text),
        Name = cerl:concrete(cerl:module_name(Core)),
        {ok, _, Code} = compile:forms(made(noted(Core, erlang_file(Source, Name)), Name, Places), [from_core, binary]),
        {ok, Name, first_of(Core), Code}
    catch
        error:Reason -> {error, Reason}
    end.

%% The tree of a text of Core Erlang. The scanner of the machine takes no characters past ASCII, so each is written in
%% ASCII before, between two marks, and put back into the atoms and strings after.
read(Text) ->
    Mark = mark(Text),
    {ok, Tokens, _} = core_scan:string(lists:flatmap(fun(C) -> in_ascii(C, Mark) end, Text)),
    {ok, Core} = core_parse:parse([from_ascii(Token, Mark) || Token <- Tokens]),
    Core.

%% A character that the text has neither as it is nor as an escape.
mark(Text) ->
    hd([C || C <- lists:seq(1, 7), not lists:member(C, Text), string:find(Text, io_lib:format("\\~3.8.0b", [C])) =:= nomatch]).

in_ascii(C, Mark) when C > 127 -> [Mark] ++ integer_to_list(C) ++ [Mark];
in_ascii(C, _) -> [C].

from_ascii({atom, Line, Atom}, Mark) -> {atom, Line, list_to_atom(put_back(atom_to_list(Atom), Mark))};
from_ascii({string, Line, String}, Mark) -> {string, Line, put_back(String, Mark)};
from_ascii(Token, _) -> Token.

put_back(Text, Mark) ->
    case lists:splitwith(fun(C) -> C =/= Mark end, Text) of
        {_, ""} -> Text;
        {Before, [Mark | Rest]} ->
            {Number, [Mark | After]} = lists:splitwith(fun(C) -> C =/= Mark end, Rest),
            Before ++ [list_to_integer(Number) | put_back(After, Mark)]
    end.

%% The lines in a .core file are those of the source that it was made from.
erlang_file(Source, Name) ->
    case filename:extension(Source) of
        ".core" -> atom_to_list(Name) ++ ".erl";
        _ -> Source
    end.

%% The module with the file beside each line, as the machine's own stack has it.
noted(Core, Source) -> cerl_trees:map(fun(Tree) -> cerl:set_ann(Tree, notes(cerl:get_ann(Tree), Source)) end, Core).

notes(Notes, Source) ->
    Lines = [Line || Line <- Notes, is_integer(Line)] ++
        [Line || {Line, Column} <- Notes, is_integer(Line), is_integer(Column)],
    Files = [filename:basename(File) || {file, File} <- Notes],
    case Lines of
        [] -> [];
        [Line | _] -> [Line, {file, hd(Files ++ [Source])}]
    end.

made(Core, Name, Places) ->
    First = cerl:c_fname(first(), 0),
    Main = cerl:c_fun([], cerl:c_apply(cerl:c_fname(main, 0), [])),
    Functions = [{Var, function(cerl:var_name(Var), played(Fun, Name), Name, Places)} || {Var, Fun} <- cerl:module_defs(Core)],
    Allowed = cerl:c_fname(allowed(), 0),
    Number = cerl:c_fun([], cerl:abstract(allowed(Core))),
    cerl:c_module(cerl:abstract(name()), [First, Allowed | cerl:module_exports(Core)], [], [{First, Main}, {Allowed, Number} | Functions]).

%% How many applications a module allows between two requests (docs/LANGUAGE.md, "Evaluation"): the number that the first
%% attribute says of those that say one, or else 10,000.
allowed(Core) ->
    Said = [N || {Name, Value} <- cerl:module_attrs(Core), cerl:concrete(Name) =:= explore_applications,
                 [N] <- [cerl:concrete(cerl:fold_literal(Value))], is_integer(N), N >= 1, N =< 1000000],
    hd(Said ++ [10000]).

%% A function that chooses what a computed call means (erlang/README.md) tells the machine when it begins, and when it has
%% its value; a function of the source which clause of it runs.
function({Name, _} = Key, Fun, Module, Places) ->
    case atom_to_list(Name) of
        "call " ++ _ -> dispatching(callback, Fun);
        "computed call" -> dispatching(callback, Fun);
        "apply computed" -> dispatching(other, Fun);
        Text ->
            case lists:member($\s, Text) orelse not maps:is_key(Key, Places) of
                true -> Fun;
                false -> telling(full_name(Key, Module), Fun, maps:get(Key, Places))
            end
    end.

dispatching(Kind, Fun) ->
    Value = cerl:c_var('Given@'),
    Body = cerl:c_let([Value], cerl:fun_body(Fun), cerl:c_seq(ask([], leaves, []), Value)),
    cerl:update_c_fun(Fun, cerl:fun_vars(Fun), cerl:c_seq(ask([], enters, [cerl:abstract(Kind)]), Body)).

telling(Name, Fun, Places) when is_list(Places) ->
    Body = cerl:fun_body(Fun),
    case cerl:type(Body) =:= 'case' andalso length(cerl:case_clauses(Body)) =:= length(Places) of
        true ->
            Clauses = [told_of(Name, Clause, Place) || {Clause, Place} <- lists:zip(cerl:case_clauses(Body), Places)],
            cerl:update_c_fun(Fun, cerl:fun_vars(Fun), cerl:update_c_case(Body, cerl:case_arg(Body), Clauses));
        false -> Fun
    end;
telling(Name, Fun, Place) -> cerl:update_c_fun(Fun, cerl:fun_vars(Fun), runs(Name, Place, cerl:fun_body(Fun))).

%% (a clause that the compiler added, which fails, has no place)
told_of(_, Clause, none) -> Clause;
told_of(Name, Clause, Place) ->
    cerl:update_c_clause(Clause, cerl:clause_pats(Clause), cerl:clause_guard(Clause), runs(Name, Place, cerl:clause_body(Clause))).

runs(Name, Place, Body) -> cerl:c_seq(ask([], runs, [cerl:abstract(Name), cerl:abstract(Place)]), Body).

%% {Module, Function, Arity}, where the functions of the main module have no module in their names.
full_name({Name, Arity}, Main) ->
    case string:split(atom_to_list(Name), ":") of
        [Module, Function] when Module =/= "", Function =/= "" -> {list_to_atom(Module), list_to_atom(Function), Arity};
        _ -> {Main, Name, Arity}
    end.

%% What the first process runs: main/0, or the function that main/0 does no more than apply.
first_of(Core) ->
    [Main] = [Fun || {Var, Fun} <- cerl:module_defs(Core), cerl:var_name(Var) =:= {main, 0}],
    Body = cerl:fun_body(Main),
    {Name, Arity} = case cerl:type(Body) =:= apply andalso cerl:apply_args(Body) =:= [] of
        true -> cerl:var_name(cerl:apply_op(Body));
        false -> {main, 0}
    end,
    lists:flatten(io_lib:format("~tw/~w", [Name, Arity])).

%% A tree with its requests asked of the transcript.
played(Tree, Name) ->
    Below = fun(Part) -> played(Part, Name) end,
    case cerl:type(Tree) of
        call -> call(inside(Tree, Below), Name);
        'receive' -> waiting(inside(Tree, Below));
        apply -> applied(inside(Tree, Below));
        'catch' -> caught(cerl:catch_body(inside(Tree, Below)));
        clause -> cerl:update_c_clause(Tree, cerl:clause_pats(Tree), cerl:clause_guard(Tree), Below(cerl:clause_body(Tree)));
        primop -> raised(inside(Tree, Below));
        _ -> inside(Tree, Below)
    end.

inside(Tree, Below) ->
    case cerl:subtrees(Tree) of
        [] -> Tree;
        Groups -> cerl:update_tree(Tree, [[Below(Part) || Part <- Group] || Group <- Groups])
    end.

call(Tree, Name) ->
    Module = atom_of(cerl:call_module(Tree)),
    Function = atom_of(cerl:call_name(Tree)),
    Arguments = cerl:call_args(Tree),
    case known_calls:is_request(Module, Function, length(Arguments)) of
        true ->
            What = [place(Tree), cerl:abstract(Module), cerl:abstract(Function), cerl:make_list(Arguments)],
            kept(ask(cerl:get_ann(Tree), ask, What));
        false when Module =:= Name ->
            counted(Tree, Arguments, fun(Given) -> cerl:update_c_call(Tree, cerl:abstract(name()), cerl:call_name(Tree), Given) end);
        false ->
            case known_calls:is_of_dictionary(Module, Function, length(Arguments)) of
                true -> built(Tree, ask(cerl:get_ann(Tree), keeps, [cerl:abstract(Function), cerl:make_list(Arguments)]));
                false -> built(Tree, Tree)
            end
    end.

%% A call that its process answers by itself, with what it gives shown to the machine.
built(Tree, Answered) ->
    Value = cerl:c_var('Built@'),
    cerl:c_let([Value], Answered, cerl:c_seq(ask([], built, [place(Tree), Value]), Value)).

atom_of(Tree) ->
    case cerl:is_c_atom(Tree) of
        true -> cerl:atom_val(Tree);
        false -> none
    end.

ask(Notes, Function, Arguments) ->
    cerl:ann_c_call(Notes, cerl:abstract(report_machine), cerl:abstract(Function), Arguments).

%% The message is there before the receive begins, or else it does not come: so it need not wait.
waiting(Tree) ->
    Notes = cerl:get_ann(Tree),
    Late = cerl:c_seq(ask([], not_taken, []), cerl:receive_action(Tree)),
    Receive = cerl:update_c_receive(Tree, cerl:receive_clauses(Tree), cerl:abstract(0), Late),
    Kind = case cerl:receive_clauses(Tree) of [] -> sleep; _ -> 'receive' end,
    cerl:c_seq(ask(Notes, wait, [place(Tree), cerl:abstract(Kind), cerl:receive_timeout(Tree)]), Receive).

applied(Tree) ->
    counted(Tree, cerl:apply_args(Tree), fun(Arguments) ->
        Application = cerl:update_c_apply(Tree, cerl:apply_op(Tree), Arguments),
        case cerl:get_ann(Tree) of
            [] -> Application;
            _ -> kept(Application)
        end
    end).

%% An application is counted when its arguments are there, as the explorer counts it.
counted(Tree, Arguments, Application) ->
    Given = [cerl:c_var(list_to_atom("Argument@" ++ integer_to_list(I))) || I <- lists:seq(1, length(Arguments))],
    cerl:c_let(Given, cerl:c_values(Arguments),
               cerl:c_seq(ask([], applied, [place(Tree), cerl:make_list(Given)]), Application(Given))).

%% A request, or an application in the source, leaves its caller on the stack, so that the line is found from which a
%% library function was called; and what it gives is shown to the machine.
kept(Tree) ->
    Value = cerl:c_var('Kept@'),
    cerl:c_let([Value], Tree, cerl:c_seq(ask([], built, [place(Tree), Value]), Value)).

%% What a catch gives has no stack in it.
caught(Body) ->
    [Value, Class, Reason, Trace] = [cerl:c_var(V) || V <- ['Value@', 'Class@', 'Reason@', 'Trace@']],
    cerl:c_try(Body, [Value], Value, [Class, Reason, Trace], ask([], caught, [Class, Reason])).

%% The exception whose trace is no more than its class.
raised(Tree) ->
    case {atom_of(cerl:primop_name(Tree)), cerl:primop_args(Tree)} of
        {raise, [Trace, Reason]} -> raised(Tree, Trace, Reason);
        _ -> Tree
    end.

raised(Tree, Trace, Reason) ->
    case cerl:is_c_tuple(Trace) andalso cerl:tuple_es(Trace) of
        [Mark, Class] ->
            true = cerl:is_c_atom(Mark) andalso cerl:atom_val(Mark) =:= '$trace',
            ask(cerl:get_ann(Tree), raised, [Class, Reason]);
        _ -> Tree
    end.

%% Where a tree is in the source: {File, Line}, or none.
place(Tree) ->
    cerl:abstract(case cerl:get_ann(Tree) of
        [Line, {file, File}] -> {File, Line};
        [] -> none
    end).
