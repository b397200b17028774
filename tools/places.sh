#!/bin/bash
# Prints, for each point of docs/DESIGN-PASS.md, how many lines of crates/*/src its search finds; with -l the
# lines themselves. Run at the top of the repository.
say() { # point, what, lines
  printf '%-4s %4d  %s\n' "$1" "$(printf '%s' "$3" | grep -c .)" "$2"
  if [ "$list" = 1 ] && [ "${1%a}" != 8 ]; then printf '%s\n' "$3" | sed 's/^/          /'; fi
}
found() { grep -rnE --include='*.rt' -e "$1" crates/*/src; }
names() { grep -rhoE --include='*.rt' -e "$1" crates/*/src | sed -E 's/^ *(pub(\(crate\))? )?//' | sort | uniq -d; }
list=0
[ "$1" = -l ] && list=1
say 1a 'a flag in a struct' "$(found '^ +(pub )?[a-z_]+: bool,')"
say 1b 'a case for nothing beside cases with values' "$(found '^ +(Nobody|Nothing|Done|Out|Skipped|Unopened),')"
say 1c 'a Result in a Result' "$(found 'Result<Result<')"
say 1d 'an error or a None handed on by hand' "$(found 'Err\([a-z]+\) => (return )?Err\(|if let (Err|Some)\((refusal|fault|reason)\)|None => None,|None => Err\(|Ok\(_\) => Ok')"
say 1e 'a number for a kind, a use, a line or a refusal' "$(found '(kind|usage|line|only): u8|Only\(u8\)|Refused\(u8\)|-> u8$')"
say 1f 'a check that answers an optional refusal' "$(found '\) -> Option<Refusal>')"
say 2a 'a name of more than one function' "$(names '^ *(pub(\(crate\))? )?fn [a-z_]+')"
say 2b 'a name of more than one type or constant' "$(names '^ *(pub(\(crate\))? )?(enum|struct|const|trait) [A-Za-z_]+')"
say 3a 'a loop over an index, a range or a count' "$(found '^ +(for .* in .*(\.\.|enumerate\(\))|while |loop \{)')"
say 3b 'a search that a loop makes' "$(found '^ +return (true|false|i);')"
say 4a 'a cast' "$(found ' as (u8|u16|u32|u64|u128|usize|i64|i128)\b')"
say 4b 'bytes or digits worked out by hand' "$(found '/ 256|% 256|\* 256|16777216|>= 48|- 48|< 32 |> 126|\* 10 \+|10 \* ')"
say 5a 'a clause that stands three times or more' "$(grep -rhoE --include='*.rt' '(requires|ensures) ?[a-z_]* \{.*\}' crates/*/src | sed -E 's/^(requires|ensures) ?[a-z_]* //' | sort | uniq -c | awk '$1 >= 3')"
say 5b 'a buffer and a place in it, as parameters' "$(found '^ +place: usize,|out: &mut \[u8\], place: usize')"
say 5c 'a column of cents, as a parameter' "$(found 'charges: &(mut )?\[u64\],')"
say 5d 'both rules, as parameters' "$(found 'down: &mut D,')"
say 6  'a length or a place beside something, in a struct' "$(found '^    (pub )?(count|length|place): usize,')"
say 7  'a flag as a parameter, a match on a name of a rule' "$(found '\bfn [a-z_<>]+\([^)]*[a-z]+: bool\b|match rule \{')"
say 8a 'lines of proofs' "$(find crates/*/proofs -name '*.antt' -exec cat {} +)"
say 8b 'files of answers' "$(find crates/*/proofs -name Answers.antt)"
