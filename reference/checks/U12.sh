# Telegrams of both forms, read and written alike, with each refusal and each way that tells the forms apart; a row that is 0 fails. And enough locks above 16.
"$ref/gen_telegrams" 100000 29 > "$work/telegrams.in"
"$ref/ref_records" < "$work/telegrams.in" > "$work/telegrams.expected"
"$bin/try_records" < "$work/telegrams.in" > "$work/telegrams.found"
cmp "$work/telegrams.expected" "$work/telegrams.found" || stop "telegrams: try_records and the reference differ ($work/telegrams.expected, telegrams.found)"
"$ref/telegrams" < "$work/telegrams.in" > "$work/telegrams.out" || { cat "$work/telegrams.out"; stop "some answer was not met"; }
sed 's/^/compare: both forms, alike: /' "$work/telegrams.out"
wide=$(awk '/locks of 17 controllers and more/ { print $1 }' "$work/schedules.out")
[ "$wide" -ge 500 ] || stop "only $wide of the schedules have more than 16 controllers"
say "$wide of the schedules have 17 to 32 controllers"
