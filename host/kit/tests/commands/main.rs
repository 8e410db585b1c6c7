//! The programs as they are run.

mod rootaudit;
mod rootaudit_cold;
mod rootaudit_dates;
mod rootaudit_fakes;
mod rootaudit_fault;
mod rootaudit_files;
mod rootaudit_gaps;
mod rootaudit_growth;
mod rootaudit_jobs;
mod rootaudit_json;
mod rootaudit_large;
mod rootaudit_named;
mod rootaudit_names;
mod rootaudit_newpage;
mod rootaudit_options;
mod rootaudit_output;
mod rootaudit_page;
mod rootaudit_progress;
mod rootaudit_read;
mod rootaudit_strings;
mod rootaudit_tail;
mod rootkeys;
mod rootmap;
