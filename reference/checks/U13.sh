# Reports over many schedules, byte for byte: 300 records with every refusal, every class of n and k to 1,000; a row that is 0 fails.
"$ref/compare_reports" 300 41 "$bin/program_report" > "$work/reports.out" || { cat "$work/reports.out"; stop "the reports differ"; }
sed 's/^/compare: reports: /' "$work/reports.out"
