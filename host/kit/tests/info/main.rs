//! The StreamerInfo reader.

mod info;
mod info_ends;
mod info_large;
mod info_names;
mod info_options;
mod info_options_faults;
mod info_root;
mod long_strings_info;
mod option_lists;
mod stored;
