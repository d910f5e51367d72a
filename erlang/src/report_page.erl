%% A report as one page of HTML: each error with its events and its drawing, and the source beside them. It needs no script and
%% no other file.
-module(report_page).
-export([text/4, in_source/1]).
-include("report.hrl").

%% How many events are named at a line of the source.
-define(NAMED, 6).

%% The page of a report: its title, the lines before the errors and after them, the errors, and the files of the source,
%% {Name, Lines}. An error is {Number, Title, Notes, Told, Below, Drawing}, where notes and what is below are lines.
text(Title, {Head, Tail}, Errors, Sources) ->
    Marks = marks(Errors),
    ["<!DOCTYPE html>\n<html lang=\"en\">\n<head>\n<meta charset=\"utf-8\">\n<title>", escaped(Title), "</title>\n", style(), "</head>\n<body>\n",
     "<main>\n<h1>", escaped(Title), "</h1>\n", block(Head), contents(Errors), [section(Error, Sources) || Error <- Errors], block(Tail), "</main>\n",
     "<aside>\n", [source(Source, Marks) || Source <- Sources], "</aside>\n</body>\n</html>\n"].

style() ->
    ["<style>\n"
     "body{margin:0;display:flex;font-family:sans-serif;font-size:14px;color:#1f2937}\n"
     "main{flex:3;min-width:0;padding:1em}\n"
     "aside{flex:2;min-width:0;position:sticky;top:0;height:100vh;overflow:auto;border-left:1px solid #d1d5db;background:#f9fafb}\n"
     "pre,td,.source{font-family:'DejaVu Sans Mono',Menlo,Consolas,monospace;font-size:12px}\n"
     "pre{white-space:pre-wrap}\n"
     "h1{font-size:20px} h2{font-size:16px;border-top:1px solid #d1d5db;padding-top:1em} aside h2{border:0;padding:0 1em}\n"
     "table{border-collapse:collapse} td{padding:1px 8px;vertical-align:top;white-space:pre-wrap;overflow-wrap:anywhere}\n"
     "td.number{text-align:right;color:#6b7280} tr.final,tr:target{background:#fee2e2}\n"
     ".drawing{overflow-x:auto;margin:1em 0} a{color:#1d4ed8;text-decoration:none}\n"
     ".source{white-space:pre;padding:0 1em} .source.touched{background:#fef3c7} .source:target{background:#fca5a5}\n"
     ".source b{display:inline-block;width:3em;font-weight:normal;color:#9ca3af} .source i{font-style:normal;padding-left:2em}\n"
     "</style>\n"].

%% Lines of the report, without the blanks before them.
block(Text) ->
    case string:trim(lists:flatten(Text)) of
        "" -> "";
        Trimmed -> ["<pre>", [[escaped(string:trim(Line, leading, " ")), "\n"] || Line <- string:split(Trimmed, "\n", all)], "</pre>\n"]
    end.

contents(Errors) ->
    ["<ul>\n", [["<li><a href=\"#", error_key(Number), "\">", escaped(Title), "</a></li>\n"] || {Number, Title, _, _, _, _} <- Errors], "</ul>\n"].

%% ---- an error

section({Error, Title, Notes, #{events := Events, places := Places, waits := Waits} = Told, Below, Drawing}, Sources) ->
    %% (of a deadlock or unread messages it is not the last event that counts, but who waits)
    Final = case Waits of [] -> length(Events); _ -> none end,
    ["<section>\n<h2 id=\"", error_key(Error), "\">", escaped(Title), "</h2>\n", block(Notes), "<table>\n",
     [event(Error, Event, Final, maps:get(Event#event.number, Places, none), Sources) || Event <- Events],
     [waiting(Wait, Told, Sources) || Wait <- Waits],
     "</table>\n", block(Below), "<div class=\"drawing\">\n", Drawing, "</div>\n</section>\n"].

event(Error, #event{number = Number, who = Who, deed = Deed}, Final, Place, Sources) ->
    Class = case Number of Final -> " class=\"final\""; _ -> "" end,
    ["<tr id=\"", event_key(Error, Number), "\"", Class, "><td class=\"number\">", integer_to_list(Number), "</td><td>", escaped(report_text:who(Who)),
     "</td><td>", escaped(report_text:deed(Deed)), "</td><td>", linked(Place, Sources), "</td></tr>\n"].

waiting({Name, _}, Told, Sources) ->
    ["<tr class=\"final\"><td></td><td>", escaped(Name), "</td><td>", escaped(report_text:waits(Name, Told)), "</td><td>",
     linked(report_text:stands(Name, Told), Sources), "</td></tr>\n"].

error_key(Error) -> ["error-", integer_to_list(Error)].

event_key(Error, Number) -> ["event-", integer_to_list(Error), "-", integer_to_list(Number)].

%% A place, which leads to its line where the source is on the page.
linked(Place, Sources) ->
    Text = escaped(report_text:place(Place)),
    case in_source(Place) of
        {File, Line} ->
            case lists:keymember(File, 1, Sources) of
                true -> ["<a href=\"#", line_key(File, Line), "\">", Text, "</a>"];
                false -> Text
            end;
        none -> Text
    end.

%% The line of the source of a place, or none.
in_source({sent, Place}) -> in_source(Place);
in_source({_, {_, _, _}, Place}) -> in_source(Place);
in_source({File, Line}) when is_list(File) -> {File, Line};
in_source(_) -> none.

%% ---- the source

%% Which turns have each line, as {Error, Number}.
marks(Errors) ->
    All = [{in_source(maps:get(Number, Places, none)), {Error, Number}} ||
              {Error, _, _, #{events := Events, places := Places}, _, _} <- Errors, #event{number = Number, who = Who} <- Events, not is_tuple(Who)],
    lists:foldr(fun({Line, Event}, Known) -> Known#{Line => [Event | maps:get(Line, Known, [])]} end, #{}, All).

source({File, Lines}, Marks) ->
    ["<h2>", escaped(File), "</h2>\n", [line(File, Number, Line, maps:get({File, Number}, Marks, [])) || {Number, Line} <- lists:enumerate(Lines)]].

line(File, Number, Line, Events) ->
    Class = case Events of [] -> "source"; _ -> "source touched" end,
    ["<div class=\"", Class, "\" id=\"", line_key(File, Number), "\"><b>", integer_to_list(Number), "</b>", escaped(Line), named(Events), "</div>\n"].

named([]) -> "";
named(Events) ->
    More = case length(Events) > ?NAMED of true -> " .."; false -> "" end,
    ["<i>", lists:join(" ", [["<a href=\"#", event_key(Error, Number), "\">", integer_to_list(Error), ".", integer_to_list(Number), "</a>"] ||
                                {Error, Number} <- lists:sublist(Events, ?NAMED)]), More, "</i>"].

%% (characters that mean something in an address are written by their numbers)
line_key(File, Line) -> ["line-", uri_string:quote(File), "-", integer_to_list(Line)].

escaped(Text) -> [escape(C) || C <- lists:flatten(Text)].

escape($<) -> "&lt;";
escape($>) -> "&gt;";
escape($&) -> "&amp;";
escape($") -> "&quot;";
escape(C) when C < 32, C =/= $\n, C =/= $\t; C >= 127, C < 160 -> 16#fffd;
escape(C) -> C.
