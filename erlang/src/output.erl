%% Calls of io:format and its kin. They write nothing here, but they fail as on the real machine: that is what a function
%% of the library looks after. Where it is plain that a call cannot fail, it is left out.
-module(output).

-export([never_fails/2, shortened/2]).

-include("core.hrl").

%% Whether a call of the module io, of this name with these arguments, cannot fail.
never_fails(nl, []) -> true;
never_fails(nl, [Device]) -> is_device(Device);
never_fails(write, [_]) -> true;
never_fails(write, [Device, _]) -> is_device(Device);
never_fails(put_chars, [Chars]) -> is_text(Chars);
never_fails(put_chars, [Device, Chars]) -> is_device(Device) andalso is_text(Chars);
never_fails(F, [Format]) when F =:= format; F =:= fwrite -> is_formatted(Format, core_tree:literal([]));
never_fails(F, [Format, Arguments]) when F =:= format; F =:= fwrite -> is_formatted(Format, Arguments);
never_fails(F, [Device, Format, Arguments]) when F =:= format; F =:= fwrite -> is_device(Device) andalso is_formatted(Format, Arguments);
never_fails(_, _) -> false.

is_device(#c_literal{val = Device}) -> lists:member(Device, [standard_io, standard_error, user]);
is_device(_) -> false.

is_text(#c_literal{val = Chars}) -> is_written(fun() -> Chars end);
is_text(_) -> false.

is_written(Make) ->
    try is_binary(unicode:characters_to_binary(Make()))
    catch error:_ -> false
    end.

%% A reference stands for each argument that is computed. It may be written as a term, and nowhere else.
is_formatted(#c_literal{val = Format}, Arguments) ->
    Computed = make_ref(),
    case values(Arguments, Computed) of
        unknown -> false;
        Values -> is_written(fun() -> io_lib:format(Format, Values) end) andalso only_as_term(Computed, io_lib:scan_format(Format, Values))
    end;
is_formatted(_, _) -> false.

%% The arguments of such a call, where a format that is written has lost what never fails. So less is done when it runs.
shortened(F, [Device, Format, Arguments]) when F =:= format; F =:= fwrite -> [Device | shortened(F, [Format, Arguments])];
shortened(F, [#c_literal{val = Format} = N, Arguments] = Args) when is_list(Format), F =:= format orelse F =:= fwrite ->
    Values = values(Arguments, make_ref()),
    try io_lib:scan_format(Format, Values) of
        Parts ->
            {Controls, Plain} = lists:partition(fun is_map/1, Parts),
            {Short, _} = io_lib:unscan_format(lists:filter(fun may_fail/1, Controls)),
            case is_written(fun() -> Plain end) andalso not lists:member($*, Format) of
                true -> [N#c_literal{val = lists:flatten(Short)}, Arguments];
                false -> Args
            end
    catch error:_ -> Args
    end;
shortened(_, Args) -> Args.

%% Whether a control does more than to write itself.
may_fail(#{args := [], width := none, precision := none}) -> false;
may_fail(_) -> true.

values(#c_literal{val = V}, _) -> V;
values(#c_cons{hd = Head, tl = Tail}, Computed) ->
    case values(Tail, Computed) of
        unknown -> unknown;
        Values -> [value(Head, Computed) | Values]
    end;
values(_, _) -> unknown.

value(#c_literal{val = V}, _) -> V;
value(_, Computed) -> Computed.

only_as_term(Computed, Parts) ->
    lists:all(fun(#{control_char := C, args := Args}) -> lists:member(C, "wpi") orelse not lists:member(Computed, Args);
                 (_) -> true
              end, Parts).
