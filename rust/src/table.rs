//! The table of the sixteen changes. It is all that knows them: what is made for each change is made from it.

/// Hands the table to a macro. A line of it is the exported function, the name of the change and its arguments between
/// `store` and `out`, each with how it is passed: `bytes`, `place` and `number`, or the enum whose code it is.
macro_rules! for_each_change {
    ($then:ident) => {
        $then! {
            /// 1. Appends a definition.
            ///
            /// Refuses with `BadName`, `BadCode`, `Taken` and `Ceiling`.
            formstore_create_definition create_definition(name: bytes, kind: Kind);

            /// 2. Destroys a definition, with its model and attributes.
            ///
            /// Refuses with `Unknown` and `InUse`.
            formstore_destroy_definition destroy_definition(definition: number);

            /// 3. Inserts an element into the model of `owner`: after the member that the place picks, or before the
            ///    first where its last number is 0. A required member of a spine list gives each instance a filling
            ///    with the text.
            ///
            /// Refuses with `BadValue`, `BadCode`, `Unknown`, `NoPlace`, `WrongKind`, `InUse`, `Round`, `Default`,
            /// `OffSpine`, `Ceiling` and `Serials`.
            formstore_insert_element insert_element(owner: number, place: place, definition: number, quantifier: Quantifier, text: bytes);

            /// 4. Removes an element from the model of `owner`, with the children of instances that it stands for.
            ///
            /// Refuses with `Unknown`, `NoPlace`, `Grouping` and `NoMatch`.
            formstore_remove_element remove_element(owner: number, place: place);

            /// 5. Changes the quantifier of an element. In a spine list a cut keeps each instance's first, and a gain
            ///    puts a filling with the text where none stands.
            ///
            /// Refuses with `BadValue`, `BadCode`, `Unknown`, `NoPlace`, `Default`, `OffSpine`, `Ceiling` and
            /// `Serials`.
            formstore_change_quantifier change_quantifier(owner: number, place: place, quantifier: Quantifier, text: bytes);

            /// 6. Converts `count` members from the place on into a group without quantifier. Rows stay.
            ///
            /// Refuses with `BadCode`, `Unknown`, `NoPlace`, `Grouping` and `Ceiling`.
            formstore_convert_to_group convert_to_group(owner: number, place: place, count: number, sort: GroupSort);

            /// 7. Flattens a group into its list. Rows stay.
            ///
            /// Refuses with `Unknown`, `NoPlace` and `Grouping`.
            formstore_flatten_group flatten_group(owner: number, place: place);

            /// 8. Changes the quantifier of a group. A gain in a spine list gives an instance without a child of the
            ///    group the group's filling.
            ///
            /// Refuses with `BadValue`, `BadCode`, `Unknown`, `NoPlace`, `Default`, `OffSpine`, `Ceiling` and
            /// `Serials`.
            formstore_change_group_quantifier change_group_quantifier(owner: number, place: place, quantifier: Quantifier, text: bytes);

            /// 9. Adds an attribute; a REQUIRED one adds a row with the value to each instance.
            ///
            /// Refuses with `BadName`, `BadValue`, `BadCode`, `Taken`, `Unknown`, `Default`, `Ceiling` and `Serials`.
            formstore_add_attribute add_attribute(owner: number, name: bytes, sort: AttributeSort, value: bytes);

            /// 10. Destroys an attribute, with its rows.
            ///
            /// Refuses with `Unknown`.
            formstore_destroy_attribute destroy_attribute(attribute: number);

            /// 11. Adds a last document, filled with the text.
            ///
            /// Refuses with `BadValue`, `Unknown`, `Ceiling` and `Serials`.
            formstore_add_document add_document(definition: number, text: bytes);

            /// 12. Adds an element as child number `child` (from 0, element children only) of the element `parent`,
            ///     filled with the text.
            ///
            /// Refuses with `BadValue`, `Unknown`, `NoRow`, `NoPlace`, `NoMatch`, `Ceiling` and `Serials`.
            formstore_add_element add_element(parent: number, child: number, definition: number, text: bytes);

            /// 13. Destroys an element with all below it, or a whole document.
            ///
            /// Refuses with `NoRow` and `NoMatch`.
            formstore_destroy_element destroy_element(element: number);

            /// 14. Sets an attribute of an element; its row keeps its serial if it is present.
            ///
            /// Refuses with `BadValue`, `Unknown`, `NoRow`, `NoMatch`, `Ceiling` and `Serials`.
            formstore_set_attribute set_attribute(element: number, attribute: number, value: bytes);

            /// 15. Destroys the row of an element's attribute.
            ///
            /// Refuses with `Unknown`, `NoRow` and `NoMatch`.
            formstore_destroy_attribute_row destroy_attribute_row(element: number, attribute: number);

            /// 16. Sets the text of a PCDATA element.
            ///
            /// Refuses with `BadValue`, `NoRow` and `WrongKind`.
            formstore_set_text set_text(element: number, text: bytes);
        }
    };
}

/// The type of an argument of a call that takes codes as numbers.
macro_rules! thin {
    (bytes) => {
        &[u8]
    };
    (place) => {
        &[u32]
    };
    ($number:ident) => {
        u32
    };
}
