"""The checks of the extension for PostgreSQL, by subject: hosts/pgext/check runs them."""
