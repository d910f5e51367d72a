%% What EUnit's header has for tests that are functions, where EUnit is not installed. A failure is the error that it is there.
-ifndef(EUNIT_HRL).
-define(EUNIT_HRL, true).

-ifndef(TEST).
-define(TEST, true).
-endif.
-ifndef(EUNIT).
-define(EUNIT, true).
-endif.

%% (EUnit exports them)
-compile(nowarn_unused_function).

%% The end of a test: what was asserted, of which expression, what was expected, and what came instead.
-define(failed(Name, Text, Expected, Found),
        erlang:error({Name, [{module, ?MODULE}, {line, ?LINE}, {expression, Text}, Expected, Found]})).

-define(isTrue(Name, Expr, Text, Wanted),
        ((fun() ->
              case Expr of
                  Wanted -> ok;
                  X__V when is_boolean(X__V) -> ?failed(Name, Text, {expected, Wanted}, {value, X__V});
                  X__V -> ?failed(Name, Text, {expected, Wanted}, {not_boolean, X__V})
              end
          end)())).
-define(assert(Expr), ?isTrue(assert, (Expr), (??Expr), true)).
-define(assertNot(Expr), ?isTrue(assert, (Expr), (??Expr), false)).

-define(assertEqual(Expected, Expr),
        ((fun() ->
              X__X = (Expected),
              case (Expr) of
                  X__X -> ok;
                  X__V -> ?failed(assertEqual, (??Expr), {expected, X__X}, {value, X__V})
              end
          end)())).
-define(assertNotEqual(Unexpected, Expr),
        ((fun() ->
              X__X = (Unexpected),
              case (Expr) of
                  X__X -> erlang:error({assertNotEqual, [{module, ?MODULE}, {line, ?LINE}, {expression, (??Expr)}, {value, X__X}]});
                  _ -> ok
              end
          end)())).
-define(assertMatch(Guarded, Expr),
        ((fun() ->
              case (Expr) of
                  Guarded -> ok;
                  X__V -> ?failed(assertMatch, (??Expr), {pattern, (??Guarded)}, {value, X__V})
              end
          end)())).
-define(assertNotMatch(Guarded, Expr),
        ((fun() ->
              X__V = (Expr),
              case X__V of
                  Guarded -> ?failed(assertNotMatch, (??Expr), {pattern, (??Guarded)}, {value, X__V});
                  _ -> ok
              end
          end)())).

%% (the trace is [] here)
-define(assertException(Class, Term, Expr), ?raises(assertException, Class, Term, Expr)).
-define(assertError(Term, Expr), ?raises(assertException, error, Term, Expr)).
-define(assertExit(Term, Expr), ?raises(assertException, exit, Term, Expr)).
-define(assertThrow(Term, Expr), ?raises(assertException, throw, Term, Expr)).
-define(raises(Name, Class, Term, Expr),
        ((fun() ->
              try (Expr) of
                  X__V -> ?failed(Name, (??Expr), {pattern, "{ " ++ (??Class) ++ " , " ++ (??Term) ++ " , [...] }"}, {unexpected_success, X__V})
              catch
                  Class:Term -> ok;
                  X__C:X__T -> ?failed(Name, (??Expr), {pattern, "{ " ++ (??Class) ++ " , " ++ (??Term) ++ " , [...] }"}, {unexpected_exception, {X__C, X__T, []}})
              end
          end)())).

%% What makes tests is read, and not explored.
-define(_test(Expr), {?LINE, fun() -> (Expr) end}).
-define(_assert(Expr), ?_test(?assert(Expr))).
-define(_assertNot(Expr), ?_test(?assertNot(Expr))).
-define(_assertEqual(Expected, Expr), ?_test(?assertEqual(Expected, Expr))).
-define(_assertNotEqual(Unexpected, Expr), ?_test(?assertNotEqual(Unexpected, Expr))).
-define(_assertMatch(Guarded, Expr), ?_test(?assertMatch(Guarded, Expr))).
-define(_assertNotMatch(Guarded, Expr), ?_test(?assertNotMatch(Guarded, Expr))).
-define(_assertException(Class, Term, Expr), ?_test(?assertException(Class, Term, Expr))).
-define(_assertError(Term, Expr), ?_test(?assertError(Term, Expr))).
-define(_assertExit(Term, Expr), ?_test(?assertExit(Term, Expr))).
-define(_assertThrow(Term, Expr), ?_test(?assertThrow(Term, Expr))).

%% Nothing is written.
-define(debugMsg(Text), ok).
-define(debugHere, ok).
-define(debugFmt(Format, Arguments), ok).
-define(debugVal(Expr), (Expr)).
-define(debugTime(Text, Expr), (Expr)).

-endif.
