## Attributes are patterns of their own.
confirm-modal = Are you sure?
    .confirm = Yes
    .cancel = No
    .tooltip = Closing the window will lose all unsaved data.
#= .confirm | Yes
#= .cancel | No
#= .tooltip | Closing the window will lose all unsaved data.
