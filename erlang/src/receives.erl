%% The compiler writes a `receive` as a letrec over operations of its own. This
%% pass turns each back into the `receive` of the language. Where the shape is
%% another one nothing is guessed: the letrec stays, and its operations are refused.
-module(receives).

-export([restore/1]).

-include("core.hrl").

restore(Tree) ->
    {Flat, none} = core_tree:walk(fun flat/3, {"", 0}, none, Tree),
    {New, none} = core_tree:walk(fun rule/3, {"", 0}, none, Flat),
    New.

%% do (do a b) c, which the compiler writes where it has inlined a function, is do a (do b c).
flat(#c_seq{arg = #c_seq{arg = A, body = B} = Inner, body = C} = Node, _, S) ->
    {again, Node#c_seq{arg = A, body = Inner#c_seq{arg = B, body = C}}, S};
flat(Node, _, S) -> {inside, Node, S}.

rule(#c_letrec{} = Node, Place, S) ->
    try {again, receive_of(Node, Place), S}
    catch throw:another_shape -> {inside, Node, S}
    end;
rule(Node, _, S) -> {inside, Node, S}.

%% letrec Loop = fun () -> let <There, Message> = peek() in case There of true -> Hit, false -> Miss in Loop()
receive_of(#c_letrec{defs = [{#c_var{name = Loop}, #c_fun{vars = [], body = Body}}],
                     body = #c_apply{op = #c_var{name = Loop}, args = []}} = Letrec, Place) ->
    Receive = taken_apart(Loop, Body),
    not lists:member(Loop, core_tree:free_variables(Receive)) orelse throw(another_shape),
    Receive#c_receive{anno = notes(Letrec, Place)};
receive_of(_, _) -> throw(another_shape).

taken_apart(Loop, #c_let{vars = [#c_var{name = There}, #c_var{name = Message}],
                        arg = #c_primop{name = #c_literal{val = recv_peek_message}, args = []},
                        body = #c_case{arg = #c_var{name = There}, clauses = Clauses}}) ->
    {Hit, Miss} = true_and_false(Clauses),
    {Timeout, Action} = waiting(Loop, Miss),
    #c_receive{clauses = taken(Loop, Message, Hit), timeout = Timeout, action = Action};
taken_apart(Loop, Body) ->
    {Timeout, Action} = waiting(Loop, Body),
    #c_receive{clauses = [], timeout = Timeout, action = Action}.

%% The letrec has no line of its own: it gets the first one inside, and the file of what is around it.
notes(Letrec, {File, _}) ->
    case core_tree:place(Letrec, {"", 0}) of
        {_, 0} -> [core_tree:first_place(Letrec), {file, core_tree:first_file(Letrec, File)} | Letrec#c_letrec.anno];
        _ -> Letrec#c_letrec.anno
    end.

true_and_false([#c_clause{pats = [#c_literal{val = true}], guard = #c_literal{val = true}, body = Yes},
                #c_clause{pats = [#c_literal{val = false}], guard = #c_literal{val = true}, body = No}]) ->
    {Yes, No};
true_and_false([#c_clause{pats = [#c_literal{val = false}], guard = #c_literal{val = true}, body = No},
                #c_clause{pats = [#c_literal{val = true}], guard = #c_literal{val = true}, body = Yes}]) ->
    {Yes, No};
true_and_false(_) -> throw(another_shape).

%% let <Late> = wait(Timeout) in case Late of true -> Action, false -> Loop()
waiting(Loop, #c_let{vars = [#c_var{name = Late}],
                     arg = #c_primop{name = #c_literal{val = recv_wait_timeout}, args = [Timeout]},
                     body = #c_case{arg = #c_var{name = Late}, clauses = Clauses}}) ->
    case true_and_false(Clauses) of
        {Action, #c_apply{op = #c_var{name = Loop}, args = []}} -> {Timeout, Action};
        _ -> throw(another_shape)
    end;
waiting(_, _) -> throw(another_shape).

taken(Loop, Message, #c_case{arg = #c_var{name = Message}, clauses = Clauses}) ->
    lists:append([taken_by(Loop, Message, C) || C <- Clauses]);
taken(Loop, Message, Body) ->
    taken_by(Loop, Message, core_tree:clause([core_tree:variable(Message)], Body)).

%% A clause takes the message first, or goes on to the next message, which is no clause.
taken_by(_, Message, #c_clause{pats = [_], body = #c_seq{arg = #c_primop{name = #c_literal{val = remove_message}}, body = Body}} = C) ->
    [named(Message, C#c_clause{body = Body})];
taken_by(_, Message, #c_clause{pats = [_], body = #c_primop{name = #c_literal{val = remove_message}}} = C) ->
    %% the value of this clause is not used
    [named(Message, C#c_clause{body = core_tree:literal(ok)})];
taken_by(Loop, _, #c_clause{pats = [#c_var{}], guard = #c_literal{val = true},
                            body = #c_seq{arg = #c_primop{name = #c_literal{val = recv_next}, args = []},
                                          body = #c_apply{op = #c_var{name = Loop}, args = []}}}) ->
    [];
taken_by(_, _, _) -> throw(another_shape).

%% Where guard or body use the message by its own variable, that names the pattern.
named(Message, #c_clause{pats = [#c_var{name = Message}]} = C) -> C;
named(Message, #c_clause{pats = [P], guard = G, body = B} = C) ->
    case lists:member(Message, core_tree:free_variables(G) ++ core_tree:free_variables(B)) of
        true -> C#c_clause{pats = [#c_alias{var = core_tree:variable(Message), pat = P}]};
        false -> C
    end.
