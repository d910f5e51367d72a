%% Links what a program is made of: of the first module, of those that are offered with it, of OTP and of the library the
%% functions that are reached from where the first process begins become functions of one module. Those of the first module
%% keep their names, m:f/1 of another one is 'm:f'/1, and what is made here has a blank in its name. A call of a function that
%% is here is an application; a call of what is computed goes through a function that chooses (dispatchers.erl), among the
%% functions whose modules and names are atoms of the program.
-module(linker).

-export([link/4, modules_of/1]).

-include("core.hrl").

%%   index     for each module the functions of it that are in the library
%%   prepare   does for a definition what comes before calls are resolved
%%   done      Key => {Definition as it was read, linked}, where Key is {in, Module, Name} or {library, Name}
%%   sites     the calls of what is computed: see dispatchers.erl
%%   atoms     those that are values somewhere, so each that a computed module or name can be
%%   matched   those of patterns, which are values too where a text becomes an atom
%%   begun     the names of functions that processes begin with by their names
%%   apart     whether the first process has something to do before the function Entry, which it may come to again
%% and of the definition at hand
%%   context   {in, Module} or library
%%   origin, home
%%   uses      the keys of the functions that it uses
-record(link, {modules, library, index, entry, prepare, done = #{}, sites = #{}, atoms = #{}, matched = #{}, begun = #{}, apart = false,
               ledger, context, origin, home, uses = []}).

%% {Definitions, Exports, Read, Modules, Ledger}, where Read is [{Module, its definitions as they were read}], and Modules are
%% those with what was read of them: what is reached from the function Entry, {Module, Name}. Prepare(Definition, Ledger) is
%% done with each before its calls are resolved.
link(Entry, {Modules, Library}, Prepare, Ledger) ->
    Begin = #link{modules = Modules, library = Library, index = index(Library), entry = Entry, prepare = Prepare, ledger = Ledger,
                  atoms = maps:from_list([{Atom, true} || Atom <- atom_texts:made(Library)])},
    made(kept(reached(Begin), Begin)).

%% What is reached from the function Entry.
reached(#link{entry = {Module, Name}} = Link) -> settled(closed([{in, Module, Name}], Link)).

made(#link{entry = {Module, Name}, done = Done, begun = Begun} = Link) ->
    Key = {in, Module, Name},
    Main = modules:main(Link#link.modules),
    {Exported, _} = modules:exports(Main, Link#link.modules),
    Keys = [K || {_, K} <- lists:sort([{rank(K, Main, Link), K} || K <- maps:keys(Done)])],
    Exports = [name(K, Link) || {in, M, N} = K <- Keys, M =:= Main, lists:member(N, Exported)] ++ maps:keys(Begun),
    Linked = [New || K <- Keys, {_, New} <- [maps:get(K, Done)]],
    {begin_system(Link, Linked ++ first(name(Key, Link))) ++ choosers(Link),
     lists:usort(Exports), read_of(Keys, Done), Link#link.modules,
     ledger:within(source, Link#link.ledger)}.

%% Keys of one module come one after the other.
read_of([{in, Module, _} | _] = Keys, Done) ->
    {Own, Others} = lists:splitwith(fun({in, M, _}) -> M =:= Module; (_) -> false end, Keys),
    [{Module, [Raw || K <- Own, {Raw, _} <- [maps:get(K, Done)]]} | read_of(Others, Done)];
read_of([{library, _} | Keys], Done) -> read_of(Keys, Done);
read_of([], _) -> [].

%% What the system keeps is in a table that the first process makes before it begins (library/system_functions.erl). The
%% function that it runs then is another one, since a process that comes to that one again makes no table.
kept(#link{done = #{{library, {'system table', 0}} := _}}, Begin) ->
    closed([{library, {'system begins', 0}}], reached(Begin#link{apart = true}));
kept(Link, _) -> Link.

begin_system(#link{done = #{{library, {'system begins', 0}} := _}}, Definitions) ->
    [case D of
         #definition{name = {main, 0}, code = #c_fun{body = Body} = Fun} ->
             D#definition{code = Fun#c_fun{body = #c_seq{arg = core_tree:apply_to([], {'system begins', 0}, []), body = Body}}};
         _ -> D
     end || D <- Definitions];
begin_system(_, Definitions) -> Definitions.

%% The first process runs main/0, which may have to be made.
first({main, 0}) -> [];
first({F, 0}) ->
    [#definition{name = {main, 0}, origin = library, home = "main/0", code = #c_fun{vars = [], body = core_tree:apply_to([], {F, 0}, [])}}].

choosers(Link) ->
    {Ms, Link1} = modules_among_atoms(Link),
    [chooser(Site, Ms, Link1) || Site <- lists:sort(maps:keys(Link1#link.sites))].

chooser(Site, Ms, Link) ->
    {Choices, _} = chosen(Site, Ms, Link),
    dispatchers:definition(Site, [{What, applied(Target, Link)} || {What, Target} <- Choices]).

applied({function, Key}, Link) -> {function, name(Key, Link)};
applied(Target, _) -> Target.

%% The modules of which the library has functions.
modules_of(Library) -> maps:keys(index(Library)).

index(Library) -> maps:fold(fun(Name, _, Sum) -> indexed(Name, Sum) end, #{}, Library).

indexed({F, A}, Sum) ->
    case binary:split(atom_to_binary(F), <<":">>) of
        [Module, Name] ->
            One = {binary_to_atom(Name), A},
            maps:update_with(binary_to_atom(Module), fun(Others) -> [One | Others] end, [One], Sum);
        [_] -> Sum
    end.

%% The first module in the order of its lines, then the other modules, then the library.
rank({in, Main, Name}, Main, #link{modules = Modules}) -> {0, Main, modules:place(Main, Name, Modules)};
rank({in, Module, Name}, _, #link{modules = Modules}) -> {1, Module, modules:place(Module, Name, Modules)};
rank({library, Name}, _, _) -> {2, library, Name}.

%% ---- what is reached

closed([], Link) -> Link;
closed([Key | Keys], #link{done = Done} = Link) when is_map_key(Key, Done) -> closed(Keys, Link);
closed([Key | Keys], Link) ->
    {Raw, Link1} = read(Key, Link),
    Link2 = linked(Key, Raw, Link1#link{uses = []}),
    closed(Link2#link.uses ++ Keys, Link2).

read({library, {F, A} = Name}, #link{library = Library} = Link) ->
    {#definition{name = Name, code = packed_functions:function(Name, Library), origin = library, home = lists:concat([F, "/", A])}, Link};
read({in, Module, Name}, #link{modules = Modules} = Link) ->
    {Definition, Modules1} = modules:definition(Module, Name, Modules),
    {Definition#definition{origin = modules:origin(Module, Modules), home = home(Module, Definition, modules:main(Modules))},
     Link#link{modules = Modules1}}.

home(Main, #definition{home = Home}, Main) -> Home;
home(Module, #definition{home = Home}, _) -> lists:concat([Module, ":", Home]).

linked(Key, #definition{origin = Origin, home = Home} = Raw, #link{prepare = Prepare, ledger = L} = Link) ->
    {#definition{code = Code} = Ready, L1} = Prepare(Raw, ledger:within(Origin, L)),
    Here = Link#link{ledger = L1, origin = Origin, home = Home, context = context(Key)},
    {New, #link{done = Done} = Link1} = core_tree:walk(fun rule/3, {"", 0}, Here, Code),
    Link1#link{done = Done#{Key => {Raw, Ready#definition{name = name(Key, Link1), code = New}}}}.

context({library, _}) -> library;
context({in, Module, _}) -> {in, Module}.

name({library, Name}, _) -> Name;
name({in, Module, {F, A} = Name}, #link{modules = Modules, entry = Entry, apart = IsApart}) ->
    case modules:main(Modules) of
        Module when Name =:= {main, 0}, IsApart orelse Entry =/= {Module, Name} -> {'main of the module', 0};
        Module -> {own_name(Module, F), A};
        _ -> {qualified(Module, F), A}
    end.

%% With a blank or a colon it might be the name of what is made here, or of a function of another module.
own_name(Module, F) ->
    case [C || C <- atom_to_list(F), C =:= $\s orelse C =:= $:] of
        [] -> F;
        _ -> qualified(Module, F)
    end.

qualified(Module, F) -> list_to_atom(lists:concat([Module, ":", F])).

%% What computed calls may reach, as long as that is more.
settled(#link{sites = Sites} = Link) ->
    {Ms, Link0} = modules_among_atoms(Link),
    {Keys, Link1} = lists:foldl(fun(Site, {Sum, L}) ->
                                        {Choices, L1} = chosen(Site, Ms, L),
                                        {[Key || {_, {function, Key}} <- Choices] ++ Sum, L1}
                                end, {[], Link0}, lists:sort(maps:keys(Sites))),
    case [Key || Key <- Keys, not maps:is_key(Key, Link1#link.done)] of
        [] -> Link1;
        New -> settled(closed(New, Link1))
    end.

%% ---- what is rewritten

rule(#c_clause{pats = Patterns, guard = Guard, body = Body} = N, Place, S) ->
    {[G, B], S1} = each([Guard, Body], Place, S),
    {Ps, S2} = lists:mapfoldl(fun(P, T) -> core_tree:walk(fun pattern_rule/3, Place, T, P) end, S1, Patterns),
    {done, N#c_clause{pats = Ps, guard = G, body = B}, S2};
rule(#c_apply{anno = Notes, op = #c_var{name = {module_info, A}}, args = Args}, _, #link{context = {in, Module}} = S) when A =< 1 ->
    {again, core_tree:call(Notes, Module, module_info, Args), S};
rule(#c_var{anno = Notes, name = {module_info, A}}, _, #link{context = {in, Module}} = S) when A =< 1 ->
    {again, library_calls:function(Notes, core_tree:literal(Module), core_tree:literal(module_info), A), S};
rule(#c_var{name = {_, _} = Name} = N, _, S) ->
    case own(Name, S) of
        {none, S1} -> {done, N, S1};
        {Key, S1} -> {done, N#c_var{name = name(Key, S1)}, use(Key, S1)}
    end;
rule(#c_literal{val = V} = N, _, S) ->
    case library_calls:functions_in(N) of
        none -> {done, N, atoms(V, S)};
        New -> {again, New, S}
    end;
rule(#c_let{} = N, _, S) -> {inside, library_calls:seed(N), S};
rule(#c_primop{} = N, Place, S) -> special(library_calls:operation(N), N, Place, S);
rule(#c_call{module = #c_literal{val = M}, name = #c_literal{val = F}, args = Args} = N, Place, S) when is_atom(M), is_atom(F) ->
    call(M, F, Args, N, Place, S);
rule(#c_call{anno = Notes, module = Module, name = #c_literal{val = F}, args = Args}, Place, S) when is_atom(F) ->
    chosen_by({call, F, length(Args)}, [Module | Args], Notes, Place, S);
rule(#c_call{anno = Notes, module = Module, name = Name, args = Args}, Place, S) ->
    chosen_by({computed, length(Args)}, [Module, Name | Args], Notes, Place, S);
rule(Node, _, S) -> {inside, Node, S}.

%% In a pattern no atom becomes a value.
pattern_rule(#c_literal{val = V} = N, _, #link{matched = Atoms} = S) -> {done, N, S#link{matched = core_tree:atoms_of(V, Atoms)}};
pattern_rule(N, _, S) -> {inside, N, S}.

each(Nodes, Place, S) -> lists:mapfoldl(fun(N, T) -> core_tree:walk(fun rule/3, Place, T, N) end, S, Nodes).

%% The function of the same module that has this name; what a letrec defines has none.
own(Name, #link{context = library, library = Library} = S) ->
    case maps:is_key(Name, Library) of
        true -> {{library, Name}, S};
        false -> {none, S}
    end;
own({F, A} = Name, #link{context = {in, Module}, library = Library, modules = Modules} = S) ->
    Over = {qualified(Module, F), A},
    case modules:definition(Module, Name, Modules) of
        {none, Modules1} -> {none, S#link{modules = Modules1}};
        {_, Modules1} ->
            case maps:is_key(Over, Library) andalso not modules:is_given(Module, Modules1) of
                true -> {{library, Over}, S#link{modules = Modules1}};
                false -> {{in, Module, Name}, S#link{modules = Modules1}}
            end
    end.

use(Key, #link{uses = Uses} = S) -> S#link{uses = [Key | Uses]}.

atoms(V, #link{atoms = Atoms} = S) -> S#link{atoms = core_tree:atoms_of(V, Atoms)}.

%% ---- calls

call(erlang, spawn_opt, Args, N, _, S) when length(Args) =:= 2; length(Args) =:= 4 -> {again, library_calls:spawned(Args, N), S};
call(erlang, apply, [Module, Function, Arguments], #c_call{anno = Notes}, Place, S) ->
    chosen_by(applied, [Module, Function, Arguments], Notes, Place, S);
call(erlang, function_exported, [_, _, _] = Args, #c_call{anno = Notes}, Place, S) ->
    chosen_by(exported, Args, Notes, Place, S);
call(erlang, make_fun, [Module, Function, #c_literal{val = Arity}], #c_call{anno = Notes}, _, S) when Arity >= 0, Arity =< 255 ->
    {again, library_calls:computed_function(Notes, Module, Function, Arity), S};
call(erlang, Spawn, [Module, Function, Arguments], N, Place, S) when Spawn =:= spawn; Spawn =:= spawn_link; Spawn =:= spawn_monitor ->
    begins(Module, Function, Arguments, N, Place, S);
call(M, F, Args, N, Place, #link{modules = Modules} = S) ->
    case modules:is_given(M, Modules) orelse library_calls:special(M, F, Args, N) of
        NotSpecial when NotSpecial =:= none; NotSpecial =:= true ->
            {Target, S1} = case known_calls:is_plain(S#link.origin, {M, F, length(Args)}, Args) of
                true -> {explorer, S};
                false -> target(M, {F, length(Args)}, S)
            end,
            called(Target, N, Place, S1);
        Special -> special(Special, N, Place, S)
    end.

special(none, N, _, S) -> {inside, N, S};
special({call, #c_call{module = #c_literal{val = M}, name = #c_literal{val = F}, args = Args} = New, Texts}, _, Place, S) ->
    {Target, S1} = target(M, {F, length(Args)}, noted(Texts, S)),
    called(Target, New, Place, S1);
special({New, Texts}, _, Place, S) ->
    {New1, S1} = core_tree:children(fun(Child, T) -> core_tree:walk(fun rule/3, Place, T, Child) end, noted(Texts, S), New),
    {done, New1, S1}.

noted(Texts, #link{ledger = L} = S) -> S#link{ledger = lists:foldl(fun(Text, T) -> ledger:note("~ts", [Text], T) end, L, Texts)}.

%% What a call of m:f/n means: explorer, where that answers it; {function, Key}; undefined, where the module is here and has
%% no such function; unknown, where the module is not here.
target(M, {F, A} = Name, #link{library = Library, modules = Modules} = S) ->
    InLibrary = {qualified(M, F), A},
    {Exports, Modules1} = modules:exports(M, Modules),
    S1 = S#link{modules = Modules1},
    IsGiven = modules:is_given(M, Modules1),
    IsExported = Exports =/= none andalso lists:member(Name, Exports),
    case known_calls:is_known(M, F, A) of
        _ when IsExported, IsGiven -> {{function, {in, M, Name}}, S1};
        _ when is_map_key(InLibrary, Library), not IsGiven -> {{function, {library, InLibrary}}, S1};
        true when not IsGiven -> {explorer, S1};
        _ when IsExported -> {{function, {in, M, Name}}, S1};
        _ when Exports =:= none; F =:= module_info; F =:= behaviour_info -> {unknown, S1};
        _ -> {undefined, S1}
    end.

called({function, {library, Name}}, N, Place, S) -> library_call(Name, N, Place, S);
called({function, {in, Module, _} = Key}, #c_call{anno = Notes, args = Args} = N, Place, #link{modules = Modules} = S) ->
    {New, S1} = each(Args, Place, use(Key, S)),
    case modules:main(Modules) of
        Module ->
            {Own, _} = name(Key, S1),
            {done, N#c_call{name = core_tree:literal(Own), args = New}, S1};
        _ -> {done, core_tree:apply_to(Notes, name(Key, S), New), S1}
    end;
called(undefined, #c_call{anno = Notes, args = Args}, Place, S) ->
    {New, S1} = each(Args, Place, S),
    {done, core_tree:evaluated(New, core_tree:raise_error(Notes, core_tree:literal(undef))), S1};
called(_, #c_call{args = Args} = N, Place, S) ->
    {New, S1} = each(Args, Place, S),
    {done, N#c_call{args = New}, S1}.

library_call(Name, #c_call{anno = Notes, module = #c_literal{val = M}, name = #c_literal{val = F}, args = Args}, Place, S) ->
    {New, S1} = each(Args, Place, use({library, Name}, S)),
    {done, core_tree:apply_to(Notes, Name, New), noted(library_calls:notes_of({M, F, length(Args)}), S1)}.

%% ---- processes that begin with a function by its name

begins(#c_literal{val = M} = Module, #c_literal{val = F} = Function, Arguments, N, Place, S0) when is_atom(M), is_atom(F) ->
    {Given, S} = core_tree:walk(fun rule/3, Place, S0, Arguments),
    case begun_target(M, F, core_tree:length_of(Arguments), S) of
        {{function, {in, _, _} = Key}, S1} ->
            {Name, Arity} = name(Key, S1),
            Main = core_tree:literal(modules:main(S1#link.modules)),
            {done, N#c_call{args = [Main, core_tree:literal(Name), Given]}, begun({Name, Arity}, use(Key, S1))};
        {Target, S1} when Target =:= undefined; Target =:= unknown -> {done, N#c_call{args = [Module, Function, Given]}, S1};
        {_, S1} -> begins_computed([Module, Function, Given], N, atoms([M, F], S1))
    end;
begins(Module, Function, Arguments, N, Place, S) ->
    {Args, S1} = each([Module, Function, Arguments], Place, S),
    begins_computed(Args, N, S1).

%% As target/3; computed, where the list of arguments is that, of a module that is here.
begun_target(M, _, none, #link{modules = Modules} = S) ->
    {Exports, Modules1} = modules:exports(M, Modules),
    {case Exports of none -> unknown; _ -> computed end, S#link{modules = Modules1}};
begun_target(M, F, Arity, S) -> target(M, {F, Arity}, S).

begun(Name, #link{begun = Begun} = S) -> S#link{begun = Begun#{Name => true}}.

%% case <M,F,A> of <atom,atom,list> -> spawn(main, 'apply begun', [M,F,A]); _ -> badarg
begins_computed(Args, #c_call{anno = Notes} = N, #link{modules = Modules} = S) ->
    {Name, 3} = dispatchers:name(begun),
    Vars = [M, F, A] = [core_tree:variable(V) || V <- ['begun module@', 'begun function@', 'begun arguments@']],
    Main = core_tree:literal(modules:main(Modules)),
    Spawn = N#c_call{args = [Main, core_tree:literal(Name), core_tree:list([M, F, A])]},
    IsList = core_tree:call_erlang([], '>=', [core_tree:call_erlang([], length, [A]), core_tree:literal(0)]),
    Guard = core_tree:call_erlang([], 'and', [core_tree:call_erlang([], is_atom, [M]),
                                              core_tree:call_erlang([], 'and', [core_tree:call_erlang([], is_atom, [F]), IsList])]),
    Case = #c_case{anno = Notes, arg = #c_values{es = Args},
                   clauses = [core_tree:clause(Vars, Guard, Spawn),
                              core_tree:clause([core_tree:variable(V) || V <- ['other1@', 'other2@', 'other3@']],
                                               core_tree:raise_error(Notes, core_tree:literal(badarg)))]},
    {done, Case, begun({Name, 3}, site(begun, S))}.

site(Site, #link{sites = Sites} = S) -> S#link{sites = Sites#{Site => true}}.

%% ---- calls of what is computed

%% The call of the function that chooses; where it finds nothing that is known, the process stops with the text.
chosen_by(Site, Args, Notes, Place, #link{home = Home} = S) ->
    {New, S1} = each(Args, Place, site(Site, S)),
    Text = stops:name_of(dispatchers:unknown(Site), Place, Home),
    {done, core_tree:apply_to(Notes, dispatchers:name(Site), New ++ [core_tree:literal(Text)]), S1}.

%% {[{{M, F, A}, explorer | {function, Key} | unread} | {M, undefined}], Link}: what a site may reach of these modules.
chosen(Site, Ms, Link) ->
    {Choices, Link1} = lists:mapfoldl(fun(M, L) -> of_module(Site, M, L) end, Link, Ms),
    {lists:append(Choices), Link1}.

%% What has functions here, of the modules that a computed one may be.
modules_among_atoms(Link) ->
    #link{atoms = Atoms} = Known = with_matched(Link),
    With = fun(M, #link{index = Index, modules = Modules} = L) ->
                   {Exports, Modules1} = modules:exports(M, Modules),
                   {[M || Exports =/= none orelse is_map_key(M, Index)], L#link{modules = Modules1}}
           end,
    {Found, Link1} = lists:mapfoldl(With, Known, lists:sort(maps:keys(Atoms))),
    {lists:append(Found), Link1}.

%% A text that becomes an atom is looked for among the atoms of patterns too (atom_texts.erl).
with_matched(#link{done = #{{library, {'atom of text', 1}} := _}, atoms = Atoms, matched = Matched} = Link) ->
    Link#link{atoms = maps:merge(Atoms, Matched)};
with_matched(Link) -> Link.

of_module(Site, M, #link{atoms = Atoms} = Link) ->
    {Names, IsHere, Link1} = names_of(M, Site, Link),
    Fitting = [Name || {F, _} = Name <- Names, dispatchers:fits(Site, Name, is_map_key(F, Atoms))],
    {Found, Link2} = lists:mapfoldl(fun(Name, L) -> choice(M, Name, L) end, Link1, Fitting),
    {lists:append(Found) ++ [{M, undefined} || IsHere], Link2}.

choice(M, {F, A} = Name, Link) ->
    case target(M, Name, Link) of
        {{function, _} = Target, Link1} -> {[{{M, F, A}, Target}], Link1};
        {explorer, Link1} -> {[{{M, F, A}, explorer}], Link1};
        {unknown, Link1} -> {[{{M, F, A}, unread}], Link1};
        {undefined, Link1} -> {[], Link1}
    end.

%% {The functions that a module has, or of these the one that a site names; whether all of it is here; Link}
names_of(M, {call, F, A}, #link{index = Index, modules = Modules} = Link) ->
    {Exports, Modules1} = modules:exports(M, Modules),
    IsOne = Exports =/= none orelse lists:member({F, A}, maps:get(M, Index, [])) orelse known_calls:is_known(M, F, A),
    {[{F, A} || IsOne], Exports =/= none, Link#link{modules = Modules1}};
names_of(M, _, #link{index = Index, modules = Modules, atoms = Atoms} = Link) ->
    {Exports, Modules1} = modules:exports(M, Modules),
    OfExplorer = [{F, A} || lists:member(M, [erlang, ets, lists]), F <- maps:keys(Atoms), A <- lists:seq(0, 4),
                            known_calls:is_known(M, F, A)],
    Own = case Exports of none -> []; _ -> [{module_info, 0}, {module_info, 1} | Exports] end,
    {lists:usort(Own ++ maps:get(M, Index, []) ++ OfExplorer), Exports =/= none, Link#link{modules = Modules1}}.
