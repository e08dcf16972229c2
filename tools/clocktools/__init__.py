# SPDX-License-Identifier: Apache-2.0 OR MIT
"""What the scripts in tools/ share: traces, printed text, importers, and the documents they quote."""
